//! More records in one piece of the input than there is room for at once, and large numbers.

use super::{Sample, example_packets};
use crate::model::{Address, Encapsulation, Endpoints, Key, Packet};
use crate::samples::input::{
    ACK, FIN, Input, RST, SECOND, SYN, UDP, back, both_fins, conversation, key, there,
};

pub fn cases() -> Vec<Sample> {
    vec![
        round(),
        Sample::new(
            "leaving_together",
            Input::new(1000, 0).packets(&leaving_together()),
        ),
        Sample::new(
            "long_records_leaving_together",
            Input::new(1000, 1).packets(&long_records()),
        ),
        Sample::new(
            "a_record_for_each_packet",
            Input::new(0, 0).packets(&one_packet_each()),
        ),
        Sample::new("large_octets", Input::new(0, 0).packets(&large_octets())),
        Sample::new(
            "packet_of_103_bytes",
            Input::new(0, 0).packets(&longest_packets()),
        ),
    ]
}

/// With timeout 0, and each flow that it opens is ended.
pub fn round() -> Sample {
    let closed: Vec<Packet> = (0..8).flat_map(closed_conversation).collect();
    let reset: Vec<Packet> = (0..8).flat_map(reset_conversation).collect();
    Sample::new(
        "round",
        Input::new(0, 0)
            .packets(&example_packets())
            .packets(&closed)
            .packets(&reset),
    )
}

fn closed_conversation(number: u64) -> Vec<Packet> {
    let key = conversation(51_000 + number);
    let time = 1000 * number;
    let mut packets = vec![there(&key, time, SYN), back(&key, time + 1, SYN | ACK)];
    packets.extend(both_fins(&key, time + 2));
    packets.push(there(&key, time + 9, ACK));
    packets
}

fn reset_conversation(number: u64) -> Vec<Packet> {
    let key = conversation(52_000 + number);
    vec![there(&key, number, SYN), back(&key, number + 1, RST | ACK)]
}

/// Twelve times as many flows as may be open, which all leave at once.
fn leaving_together() -> Vec<Packet> {
    (0..12)
        .flat_map(|round| {
            (0..32).map(move |place| {
                there(
                    &conversation(1000 + place),
                    10 * SECOND * round + place,
                    ACK,
                )
            })
        })
        .collect()
}

/// A key of 72 bytes.
fn longest_key(number: u64) -> Key {
    Key {
        protocol: 255,
        ethertype: Some(0xFFFF),
        endpoints: Endpoints::Ports {
            source: 0xFFFF,
            destination: 0xFFFF - number,
        },
        source: Address::V6([0xFD; 16]),
        destination: Address::V6([0xFE; 16]),
        source_mac: [0xFF; 6],
        destination_mac: [0xFF; 6],
        vlan: vec![0xFFFF, 0xFFFF],
        encapsulation: Some(Encapsulation {
            kind: 255,
            id: Some(0xFFFF_FFFF),
        }),
    }
}

fn longest_packet(number: u64, time: u64) -> Packet {
    Packet {
        time,
        frame_octets: 0xFFFF_FFFF,
        captured_octets: 0xFFFF_FFFF,
        ttl: Some(255),
        tcp_flags: Some(0x1F8),
        icmp: Some(0xFFFF),
        dscp: Some(255),
        ecn: Some(255),
        key: longest_key(number),
    }
}

fn longest_packets() -> Vec<Packet> {
    (0..3)
        .map(|number| longest_packet(number % 2, u64::MAX - number))
        .collect()
}

/// Two packets of every flow, at times of ten bytes, four times.
fn long_records() -> Vec<Packet> {
    let start = 1 << 63;
    (0..4)
        .flat_map(|round| {
            (0..64)
                .map(move |place| longest_packet(place % 32, start + 10 * SECOND * round + place))
        })
        .collect()
}

fn one_packet_each() -> Vec<Packet> {
    (0..400)
        .map(|number| there(&conversation(number), number, SYN | RST))
        .collect()
}

fn large_octets() -> Vec<Packet> {
    let key = key(UDP, Endpoints::None);
    let large = |packet: Packet| Packet {
        frame_octets: 0xFFFF_FFFF,
        tcp_flags: None,
        ..packet
    };
    (0..300)
        .map(|time| {
            large(if time % 3 == 0 {
                back(&key, time, FIN)
            } else {
                there(&key, time, FIN)
            })
        })
        .collect()
}
