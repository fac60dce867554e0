//! What is said of keys: known answers, and laws.

mod common;

use braidpuddle::{Endpoints, Key, MacAddress};
use common::Random;

const SHARDS: [u64; 6] = [0, 1, 2, 7, 4096, u64::MAX];

#[test]
fn known_answers() {
    let lines = include_str!("known_keys.txt")
        .lines()
        .filter(|line| !line.starts_with('#'));
    let mut checked = 0;
    for line in lines {
        check(&line.split(' ').collect::<Vec<_>>());
        checked += 1;
    }
    assert_eq!(checked, 14);
}

fn check(fields: &[&str]) {
    let [key, reversed, forgotten] = [0, 1, 2].map(|field| key_of(fields[field]));
    assert_eq!(key.reversed(), reversed);
    assert_eq!(key.forget_link_addresses(), forgotten);
    for (shards, field) in SHARDS.into_iter().zip(&fields[3..]) {
        assert_eq!(key.shard(shards).to_string(), *field);
    }
    let name = fields[9].trim_start_matches('-');
    assert_eq!(key.protocol_name(), name);
    let version = fields[10].parse().ok();
    assert_eq!(key.ip_version(), version);
}

/// The key of a form in hex, which is also written so.
fn key_of(hex: &str) -> Key {
    let bytes: Vec<u8> = (0..hex.len())
        .step_by(2)
        .map(|place| u8::from_str_radix(&hex[place..place + 2], 16).expect("hex"))
        .collect();
    let (key, used) = Key::decode(&bytes).expect("a key form");
    assert_eq!(used, bytes.len());
    let mut again = Vec::new();
    key.encode(&mut again).expect("every key has a form");
    assert_eq!(again, bytes);
    key
}

#[test]
fn laws() {
    let mut random = Random(30);
    for _ in 0..5000 {
        let key = random.key();
        let back = key.reversed();
        assert_eq!(back.reversed(), key);
        assert_eq!(
            (back.source, back.destination),
            (key.destination, key.source)
        );
        assert_eq!(back.source_mac, key.destination_mac);
        assert_eq!(
            (back.vlan, back.encapsulation),
            (key.vlan, key.encapsulation)
        );
        assert_eq!(key.shard(1000), back.shard(1000));
        assert!(key.shard(1000) < 1000);
        let forgotten = Key {
            source_mac: MacAddress::default(),
            destination_mac: MacAddress::default(),
            ..key
        };
        assert_eq!(key.forget_link_addresses(), forgotten);
    }
}

#[test]
fn names_and_versions() {
    let key = |protocol, ethertype| Key {
        ethertype,
        ..Key::new(
            protocol,
            "2001:db8::1".parse().unwrap(),
            "2001:db8::2".parse().unwrap(),
            Endpoints::None,
        )
    };
    assert_eq!(key(6, None).protocol_name(), "tcp");
    assert_eq!(key(6, Some(0x0806)).protocol_name(), "arp");
    assert_eq!(key(0, None).protocol_name(), "");
    assert_eq!(key(6, None).ip_version(), Some(6));
    assert_eq!(key(6, Some(0x0806)).ip_version(), None);
}
