//! The number form and the key form, written from document 01, "Byte forms".
//!
//! Nothing here looks at how the port writes or reads them: that is what the lists are to judge.

use std::net::IpAddr;

use crate::flow::{Encapsulation, Endpoints, FlowKey, VlanTags};

/// The refusal "Packet": no form begins the bytes, and they are no beginning of one.
pub const PACKET: u8 = 4;

/// The refusal "Short": the bytes are a proper, non-empty beginning of some form.
pub const SHORT: u8 = 9;

const GROUP_BITS: u32 = 7;
const MORE_FOLLOW: u8 = 0x80;

/// The form of a number: seven bits a byte, low group first, in as few groups as it takes.
///
/// It takes more than 64 bits, since the lists also hold forms of numbers just out of range.
pub fn number(value: u128) -> Vec<u8> {
    let groups = groups_of(value);
    (0..groups)
        .map(|place| {
            let group = (value >> (place * GROUP_BITS)) as u8 & !MORE_FOLLOW;
            if place + 1 < groups {
                group | MORE_FOLLOW
            } else {
                group
            }
        })
        .collect()
}

/// How many groups a number has, by its highest set bit. Zero has one.
fn groups_of(value: u128) -> u32 {
    let bits = u128::BITS - value.leading_zeros();
    bits.div_ceil(GROUP_BITS).max(1)
}

/// What reading one number of at most `most` from these bytes is refused with, or nothing where a
/// number form begins them.
pub fn number_refusal(bytes: &[u8], most: u64) -> Option<u8> {
    let most = u128::from(most);
    match bytes.iter().position(|byte| byte & MORE_FOLLOW == 0) {
        Some(last) => {
            let form = &bytes[..=last];
            let value = value_of(form);
            let begins = value <= most && number(value) == form;
            if begins { None } else { Some(PACKET) }
        }
        None if bytes.is_empty() => Some(PACKET),
        // Every number that goes on from here has these groups and at least one bit above them.
        None => {
            let least = value_of(bytes) + (1 << (bytes.len() as u32 * GROUP_BITS));
            Some(if least <= most { SHORT } else { PACKET })
        }
    }
}

/// The number that these groups make, whether or not they are its form.
fn value_of(groups: &[u8]) -> u128 {
    assert!(groups.len() <= 17, "more groups than the lists ever hold");
    groups.iter().rev().fold(0, |value, group| {
        value << GROUP_BITS | u128::from(group & !MORE_FOLLOW)
    })
}

/// A part of a form, named so that a list can put another in its place.
#[derive(Clone)]
pub struct Field {
    pub name: &'static str,
    pub bytes: Vec<u8>,
}

/// A key's form.
pub fn key(key: &FlowKey) -> Vec<u8> {
    join(&key_fields(key))
}

pub fn join(fields: &[Field]) -> Vec<u8> {
    fields
        .iter()
        .flat_map(|field| field.bytes.clone())
        .collect()
}

/// A key's form, field by field, in the order of document 01.
pub fn key_fields(key: &FlowKey) -> Vec<Field> {
    let mut fields = vec![
        numbered("protocol", key.protocol.into()),
        optional("ethertype", key.ethertype.map(u128::from)),
    ];
    fields.extend(endpoints(key.endpoints));
    fields.extend(address("source family", "source address", key.source));
    fields.extend(address(
        "destination family",
        "destination address",
        key.destination,
    ));
    fields.push(raw("source mac", &key.source_mac.0));
    fields.push(raw("destination mac", &key.destination_mac.0));
    fields.extend(vlan(&key.vlan));
    fields.extend(encapsulation(key.encapsulation));
    fields
}

fn endpoints(endpoints: Endpoints) -> Vec<Field> {
    let tag = |number| numbered("endpoints", number);
    match endpoints {
        Endpoints::None => vec![tag(0)],
        Endpoints::Ports {
            source,
            destination,
        } => vec![
            tag(1),
            numbered("source port", source.into()),
            numbered("destination port", destination.into()),
        ],
        Endpoints::SecurityAssociation(spi) => vec![tag(2), numbered("spi", spi.into())],
        Endpoints::GreProtocol(protocol) => vec![tag(3), numbered("gre protocol", protocol.into())],
    }
}

fn address(family: &'static str, name: &'static str, address: IpAddr) -> [Field; 2] {
    match address {
        IpAddr::V4(v4) => [numbered(family, 4), raw(name, &v4.octets())],
        IpAddr::V6(v6) => [numbered(family, 6), raw(name, &v6.octets())],
    }
}

fn vlan(vlan: &VlanTags) -> Vec<Field> {
    let count = |number| numbered("vlan count", number);
    match *vlan.tags() {
        [] => vec![count(0)],
        [tag] => vec![count(1), numbered("only tag", tag.into())],
        [outer, inner] => vec![
            count(2),
            numbered("outer tag", outer.into()),
            numbered("inner tag", inner.into()),
        ],
        _ => panic!("document 01 has at most two tags"),
    }
}

fn encapsulation(encapsulation: Option<Encapsulation>) -> Vec<Field> {
    let Some(tunnel) = encapsulation else {
        return vec![optional("kind", None)];
    };
    assert!(tunnel.outer.is_none(), "document 01 has no outer addresses");
    vec![
        optional("kind", Some(tunnel.kind as u128)),
        optional("id", tunnel.id.map(u128::from)),
    ]
}

pub fn numbered(name: &'static str, value: u128) -> Field {
    Field {
        name,
        bytes: number(value),
    }
}

/// 0 where it is absent, else the value plus 1.
pub fn optional(name: &'static str, value: Option<u128>) -> Field {
    numbered(name, value.map_or(0, |value| value + 1))
}

fn raw(name: &'static str, bytes: &[u8]) -> Field {
    Field {
        name,
        bytes: bytes.to_vec(),
    }
}

#[cfg(test)]
mod tests {
    use super::*;

    #[test]
    fn document_01s_examples() {
        assert_eq!(number(300), [0xAC, 0x02]);
        assert_eq!(number_refusal(&[0x80, 0x00], u64::MAX), Some(PACKET));
    }

    #[test]
    fn lengths_of_numbers() {
        assert_eq!(number(0), [0]);
        assert_eq!(number(127), [0x7F]);
        assert_eq!(number(128), [0x80, 0x01]);
        assert_eq!(number(u64::MAX.into()).len(), 10);
    }

    #[test]
    fn a_number_is_read_from_its_form_and_from_no_cut_of_it() {
        for value in [0, 1, 127, 128, 255, 16383, 16384, u64::MAX] {
            let form = number(value.into());
            assert_eq!(number_refusal(&form, value), None);
            for end in 1..form.len() {
                assert_eq!(number_refusal(&form[..end], value), Some(SHORT));
            }
        }
    }

    #[test]
    fn short_ends_where_no_number_within_the_bound_goes_on() {
        assert_eq!(number_refusal(&[0xFF], 255), Some(SHORT));
        assert_eq!(number_refusal(&[0xFF], 254), Some(PACKET));
        assert_eq!(number_refusal(&[0xFF, 0x81], 255), Some(PACKET));
        assert_eq!(number_refusal(&[0x80], 2), Some(PACKET));
        assert_eq!(number_refusal(&[], 2), Some(PACKET));
    }

    /// Every string of up to two bytes, against every number within the bound.
    #[test]
    fn refusals_are_those_of_the_definition() {
        for most in [0, 1, 2, 127, 128, 255, 300, 16383, 16384, 20000] {
            let forms: Vec<Vec<u8>> = (0..=most).map(|value| number(value.into())).collect();
            for bytes in strings_of_up_to_two_bytes() {
                let begun = forms.iter().any(|form| bytes.starts_with(form));
                let short = !bytes.is_empty() && forms.iter().any(|form| form.starts_with(&bytes));
                let refusal = match (begun, short) {
                    (true, _) => None,
                    (false, true) => Some(SHORT),
                    (false, false) => Some(PACKET),
                };
                assert_eq!(number_refusal(&bytes, most), refusal, "{bytes:?} {most}");
            }
        }
    }

    /// All bytes as the first, and some as the second: the edges of a group, and those between.
    fn strings_of_up_to_two_bytes() -> Vec<Vec<u8>> {
        let seconds = [0, 1, 2, 0x7E, 0x7F, 0x80, 0x81, 0x9B, 0x9C, 0xFE, 0xFF];
        let mut strings = vec![vec![]];
        for first in 0..=255 {
            strings.push(vec![first]);
            strings.extend(seconds.map(|second| vec![first, second]));
        }
        strings
    }
}
