//! The keys of one script: few, and near each other, so that packets meet on the same flow.

use std::net::{IpAddr, Ipv4Addr, Ipv6Addr};

use crate::answers::keys::any_key;
use crate::flow::{
    ETHERTYPE_ARP, EncapKind, Encapsulation, Endpoints, FlowKey, MacAddress, VlanTags,
};
use crate::random::Random;

/// TCP, mostly; then UDP, ICMP, ICMPv6, GRE, ESP, AH, traffic with no IP protocol, and any other.
const PROTOCOLS: [u8; 12] = [6, 6, 6, 6, 6, 17, 1, 58, 47, 50, 51, 0];

/// One script in so many has many keys.
const FEW_TO_MANY: usize = 500;

pub fn conversations(random: &mut Random) -> Vec<FlowKey> {
    if random.below(FEW_TO_MANY) == 0 {
        let count = 100 + random.below(200);
        return (0..count).map(|_| any_key(random)).collect();
    }
    let count = random.one_of(&[1, 1, 2, 2, 3, 3, 4, 6, 8, 16]);
    let mut keys: Vec<FlowKey> = Vec::new();
    for _ in 0..count {
        let key = match random.below(8) {
            0..=3 => near_key(random),
            4 => own_reverse(near_key(random)),
            5 => any_key(random),
            _ if keys.is_empty() => near_key(random),
            _ => neighbour(random, &keys),
        };
        keys.push(key);
    }
    keys
}

/// A key in which every field has few choices.
fn near_key(random: &mut Random) -> FlowKey {
    let any = random.u8();
    let common = random.one_of(&PROTOCOLS);
    let protocol = random.one_of(&[common, common, common, common, common, any]);
    FlowKey {
        source: near_address(random),
        destination: near_address(random),
        endpoints: near_endpoints(random, protocol),
        protocol,
        ethertype: random.one_of(&[None, None, None, None, Some(0), Some(ETHERTYPE_ARP)]),
        source_mac: near_mac(random),
        destination_mac: near_mac(random),
        vlan: near_tags(random),
        encapsulation: near_tunnel(random),
    }
}

/// The key, so that reversal leaves it as it is.
fn own_reverse(key: FlowKey) -> FlowKey {
    let endpoints = match key.endpoints {
        Endpoints::Ports { source, .. } => Endpoints::Ports {
            source,
            destination: source,
        },
        other => other,
    };
    FlowKey {
        destination: key.source,
        destination_mac: key.source_mac,
        endpoints,
        ..key
    }
}

/// One of the keys with one field changed.
fn neighbour(random: &mut Random, keys: &[FlowKey]) -> FlowKey {
    let (key, other) = (random.one_of(keys), near_key(random));
    match random.below(8) {
        0 => FlowKey {
            source: other.source,
            ..key
        },
        1 => FlowKey {
            protocol: other.protocol,
            ..key
        },
        2 => FlowKey {
            endpoints: other.endpoints,
            ..key
        },
        3 => FlowKey {
            vlan: other.vlan,
            ..key
        },
        4 => FlowKey {
            encapsulation: other.encapsulation,
            ..key
        },
        5 => FlowKey {
            ethertype: other.ethertype,
            ..key
        },
        6 => FlowKey {
            source_mac: other.source_mac,
            ..key
        },
        // Addresses the other way round, and nothing else.
        _ => FlowKey {
            source: key.destination,
            destination: key.source,
            ..key
        },
    }
}

fn near_address(random: &mut Random) -> IpAddr {
    let host = random.one_of(&[1, 1, 2, 2, 3]);
    let v4 = Ipv4Addr::new(192, 0, 2, host);
    match random.below(6) {
        0 => IpAddr::V6(Ipv6Addr::new(0x2001, 0xDB8, 0, 0, 0, 0, 0, host.into())),
        1 => IpAddr::V6(v4.to_ipv6_mapped()),
        _ => IpAddr::V4(v4),
    }
}

/// What the Rust's parser gives for the protocol, and now and then anything else.
fn near_endpoints(random: &mut Random, protocol: u8) -> Endpoints {
    let port = |random: &mut Random| random.one_of(&[0, 80, 80, 443, 49152]);
    let ports = Endpoints::Ports {
        source: port(random),
        destination: port(random),
    };
    let association = Endpoints::SecurityAssociation(random.one_of(&[7, 7, 8, u32::MAX]));
    let gre = Endpoints::GreProtocol(random.one_of(&[0x0800, 0x0800, 0x86DD]));
    let any = random.one_of(&[ports, association, gre, Endpoints::None]);
    let usual = match protocol {
        0 | 1 | 4 | 58 => Endpoints::None,
        47 => gre,
        50 | 51 => association,
        _ => ports,
    };
    random.one_of(&[usual, usual, usual, any])
}

fn near_mac(random: &mut Random) -> MacAddress {
    let last = random.one_of(&[0, 0, 0, 0, 0, 1]);
    MacAddress::new([last, 0, 0, 0, 0, last])
}

fn near_tags(random: &mut Random) -> VlanTags {
    let stacks: [&[u16]; 8] = [&[], &[], &[], &[], &[], &[0], &[0, 0], &[300, 4095]];
    VlanTags::from_stack(random.one_of(&stacks))
}

/// Most are outside a tunnel. No id and an id of 0 are two.
fn near_tunnel(random: &mut Random) -> Option<Encapsulation> {
    let kind = random.one_of(&[EncapKind::Vxlan, EncapKind::Vxlan, EncapKind::Other]);
    let id = random.one_of(&[None, Some(0), Some(u32::MAX)]);
    let outer = None;
    let tunnel = Some(Encapsulation { kind, outer, id });
    random.one_of(&[None, None, None, None, tunnel])
}

#[cfg(test)]
mod tests {
    use super::*;

    fn many() -> Vec<FlowKey> {
        let mut random = Random::new(1);
        (0..500).flat_map(|_| conversations(&mut random)).collect()
    }

    #[test]
    fn keys_of_every_kind() {
        let keys = many();
        let some = |test: &dyn Fn(&FlowKey) -> bool| assert!(keys.iter().any(test));
        some(&|key| *key == key.reversed());
        some(&|key| key.endpoints.security_association().is_some());
        some(&|key| key.endpoints.gre_protocol().is_some());
        some(&|key| key.endpoints == Endpoints::None && key.protocol == 1);
        some(&|key| key.ip_version() == Some(6) && key.protocol == 6);
        some(&|key| key.vlan.tags().len() == 2);
        some(&|key| key.encapsulation.is_some());
        some(&|key| key.ethertype == Some(ETHERTYPE_ARP));
    }

    #[test]
    fn no_key_that_document_01_does_not_have() {
        for key in many() {
            assert!(key.vlan.tags().len() <= 2);
            assert!(
                key.encapsulation
                    .is_none_or(|tunnel| tunnel.outer.is_none())
            );
        }
    }
}
