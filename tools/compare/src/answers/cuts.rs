//! Bytes that are no key: cut keys, and keys with one field out of its range.

use crate::answers::wrong::{self, Refused, WrongNumber};
use crate::answers::{keys, lines};
use crate::flow::FlowKey;
use crate::forms::{self, Field, PACKET, SHORT};
use crate::random::Random;

/// `q` lines.
pub fn refused(random: &mut Random) -> Vec<String> {
    let mut list = vec![lines::refused_key(&[], PACKET)];
    for key in [keys::plainest(), keys::typical(random), keys::longest()] {
        list.extend(every_cut(&key));
    }
    list.extend(
        out_of_range()
            .iter()
            .map(|(bytes, answer)| lines::refused_key(bytes, *answer)),
    );
    list
}

/// Keys with one field out of its range.
fn out_of_range() -> Vec<Refused> {
    let mut list = Vec::new();
    for number in wrong_numbers() {
        let fields = key_with(number.field);
        list.extend(wrong::with_a_wrong_number(&fields, &number, PACKET));
    }
    for (field, bytes) in never_a_number() {
        let fields = key_with(field);
        list.extend(wrong::with_bytes_instead(&fields, field, bytes, PACKET));
    }
    list
}

/// Every cut of a key could still become that key.
fn every_cut(key: &FlowKey) -> Vec<String> {
    let form = forms::key(key);
    (1..form.len())
        .map(|end| lines::refused_key(&form[..end], SHORT))
        .collect()
}

fn wrong_numbers() -> Vec<WrongNumber> {
    let cases = [
        ("protocol", 255, 256),
        ("ethertype", 1 << 16, (1 << 16) + 1),
        ("endpoints", 3, 4),
        ("source port", 65535, 65536),
        ("destination port", 65535, 65536),
        ("spi", (1 << 32) - 1, 1 << 32),
        ("gre protocol", 65535, 65536),
        ("source family", 6, 0),
        ("source family", 6, 5),
        ("source family", 6, 7),
        ("destination family", 6, 0),
        ("destination family", 6, 5),
        ("destination family", 6, 7),
        ("vlan count", 2, 3),
        ("only tag", 65535, 65536),
        ("outer tag", 65535, 65536),
        ("inner tag", 65535, 65536),
        ("kind", 1 << 8, (1 << 8) + 1),
        ("id", 1 << 32, (1 << 32) + 1),
    ];
    cases
        .into_iter()
        .map(|(field, most, value)| WrongNumber { field, most, value })
        .collect()
}

/// Bytes that begin no number of the field: more groups than its bound has, or not the shortest form.
fn never_a_number() -> [(&'static str, &'static [u8]); 12] {
    [
        ("protocol", &[0x86, 0x00]),
        ("ethertype", &[0x80, 0x00]),
        ("endpoints", &[0x80]),
        ("source port", &[0x80, 0x00]),
        ("spi", &[0x80, 0x80, 0x80, 0x80, 0x00]),
        ("source family", &[0x84]),
        ("destination family", &[0x86]),
        ("vlan count", &[0x80]),
        ("only tag", &[0x80, 0x80, 0x00]),
        ("outer tag", &[0x80, 0x80, 0x00]),
        ("kind", &[0x81, 0x00]),
        ("id", &[0x80, 0x00]),
    ]
}

/// The form of a short key that has the field.
fn key_with(field: &str) -> Vec<Field> {
    keys::shortest_of_each_kind()
        .iter()
        .map(forms::key_fields)
        .find(|fields| wrong::has(fields, field))
        .expect("some key has the field")
}
