//! What a packet ends, and which flow takes it: document 01's P6 to P11, and keys of every kind.

use super::Sample;
use crate::model::{Address, Encapsulation, Endpoints, Key, Packet};
use crate::samples::input::{
    ACK, FIN, ICMP, Input, RST, SYN, TCP, UDP, back, both_fins, conversation, key, ports, there,
};

const ESP: u64 = 50;
const GRE: u64 = 47;

pub fn cases() -> Vec<Sample> {
    [endings(), keys()].into_iter().flatten().collect()
}

fn sample(name: &str, packets: &[Packet]) -> Sample {
    Sample::new(name, Input::new(0, 0).packets(packets))
}

/// Packets behind the two FINs of a conversation.
fn after_fins(name: &str, packets: &[Packet]) -> Sample {
    let fins = both_fins(&conversation(50_000), 0);
    sample(name, &[&fins[..], packets].concat())
}

fn endings() -> Vec<Sample> {
    let one = conversation(50_000);
    let same = Key {
        destination: Address::V4([192, 0, 2, 1]),
        ..key(TCP, ports(443, 443))
    };
    vec![
        sample(
            "p6_syn_and_rst_on_a_fresh_key",
            &[there(&one, 0, SYN | RST)],
        ),
        after_fins(
            "p7_syn_and_rst_after_both_fins",
            &[there(&one, 9, SYN | RST)],
        ),
        after_fins(
            "p7_syn_and_rst_from_the_other_side",
            &[back(&one, 9, SYN | RST)],
        ),
        after_fins("p8_rst_without_syn_after_both_fins", &[there(&one, 9, RST)]),
        sample(
            "p9_key_equal_to_its_reverse",
            &[there(&same, 0, FIN), there(&same, 1, FIN)],
        ),
        sample(
            "p10_syn_at_the_start",
            &[there(&one, 500, ACK), there(&one, 500, SYN)],
        ),
        sample(
            "p10_syn_behind_the_start",
            &[there(&one, 500, ACK), there(&one, 501, SYN)],
        ),
        after_fins(
            "p11_syn_after_both_fins",
            &[there(&one, 9, SYN), back(&one, 10, SYN | ACK)],
        ),
        after_fins("both_fins_and_nothing_more", &[]),
        after_fins(
            "ack_after_both_fins",
            &[back(&one, 9, ACK), there(&one, 10, ACK)],
        ),
        after_fins("fin_after_both_fins", &[there(&one, 9, FIN | ACK)]),
        sample(
            "two_fins_of_one_side",
            &[
                there(&one, 0, FIN),
                there(&one, 1, FIN),
                there(&one, 2, ACK),
            ],
        ),
        sample(
            "fin_and_rst_at_once",
            &[there(&one, 0, FIN | RST), back(&one, 1, FIN)],
        ),
        sample(
            "no_flags_at_all",
            &[without_flags(&one), back(&one, 1, FIN)],
        ),
    ]
}

fn without_flags(key: &Key) -> Packet {
    Packet {
        tcp_flags: None,
        ..there(key, 0, 0)
    }
}

/// One packet each way: one flow, or two where the key has no other direction.
fn each_way(name: &str, key: &Key) -> Sample {
    sample(name, &[there(key, 1, ACK), back(key, 2, ACK)])
}

fn keys() -> Vec<Sample> {
    let six = Key {
        source: Address::V6([0x20; 16]),
        destination: Address::V6([0x21; 16]),
        ..conversation(50_000)
    };
    let macs = Key {
        source_mac: [2, 0, 0, 0, 0, 1],
        destination_mac: [2, 0, 0, 0, 0, 2],
        ..conversation(50_000)
    };
    vec![
        each_way("udp", &key(UDP, ports(53_000, 53))),
        each_way("icmp", &key(ICMP, Endpoints::None)),
        each_way("gre", &key(GRE, Endpoints::Gre { protocol: 0x0800 })),
        each_way("association", &key(ESP, Endpoints::Association { spi: 7 })),
        each_way("ipv6", &six),
        each_way("macs", &macs),
        sample("near_keys", &near_keys()),
    ]
}

/// Keys that differ in one field each are as many flows; they are handed out in order of their bytes.
fn near_keys() -> Vec<Packet> {
    let one = conversation(50_000);
    let tunnel = |id| Encapsulation { kind: 1, id };
    let keys = [
        Key {
            vlan: vec![300, 4095],
            ..one.clone()
        },
        Key {
            encapsulation: Some(tunnel(Some(0))),
            ..one.clone()
        },
        Key {
            ethertype: Some(0x0806),
            ..one.clone()
        },
        Key {
            vlan: vec![300],
            ..one.clone()
        },
        Key {
            protocol: UDP,
            ..one.clone()
        },
        Key {
            encapsulation: Some(tunnel(None)),
            ..one.clone()
        },
        Key {
            source: Address::V4([192, 0, 2, 9]),
            ..one.clone()
        },
        one,
    ];
    keys.iter()
        .zip(1..)
        .map(|(key, place)| there(key, place, ACK))
        .collect()
}
