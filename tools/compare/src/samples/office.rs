//! A minute of a small office: what a first reader of `replay` is to see.
//!
//! Pages are fetched over TCP, one of them by IPv6 and one from a port that is used again. Names are
//! asked for, a host is pinged, a call is made over a VLAN, a connection is refused, and a session
//! falls silent for longer than the timeout.

use crate::model::{Address, Endpoints, Key, Packet};

use super::Sample;
use super::input::{
    ACK, FIN, ICMP, Input, MILLISECOND, PSH, RST, SECOND, SYN, TCP, UDP, key, packet, ports,
};

/// In milliseconds.
const TIMEOUT: u64 = 15_000;

const ECHO_REQUEST: u64 = 256 * 8;
const ECHO_REPLY: u64 = 0;

/// Expedited forwarding.
const VOICE: u64 = 46;

pub fn office() -> Sample {
    let mut packets = [
        pages(),
        names(),
        pings(),
        call(),
        refused_connection(),
        silent_session(),
    ]
    .concat();
    packets.sort_by_key(|packet| packet.time);
    Sample::new("office", Input::new(TIMEOUT, 0).packets(&packets))
}

/// A host of the office, and one outside.
fn between(host: u8, server: u8, key: Key) -> Key {
    Key {
        source: Address::V4([10, 0, 0, host]),
        destination: Address::V4([203, 0, 113, server]),
        source_mac: [2, 0, 0, 0, 0, host],
        destination_mac: [2, 0, 0, 0, 0, 254],
        ..key
    }
}

fn tcp(host: u8, server: u8, source: u64, destination: u64) -> Key {
    between(host, server, key(TCP, ports(source, destination)))
}

/// One packet of a conversation, from its first side or from its second.
#[derive(Clone, Copy)]
struct Sent {
    answer: bool,
    flags: u64,
    octets: u64,
}

const fn asks(flags: u64, octets: u64) -> Sent {
    Sent {
        answer: false,
        flags,
        octets,
    }
}

const fn answers(flags: u64, octets: u64) -> Sent {
    Sent {
        answer: true,
        flags,
        octets,
    }
}

/// Packets one behind another, each so much later.
fn sent(key: &Key, start: u64, step: u64, packets: &[Sent]) -> Vec<Packet> {
    packets
        .iter()
        .zip(0..)
        .map(|(sent, place)| {
            let way = if sent.answer {
                key.reversed()
            } else {
                key.clone()
            };
            Packet {
                ttl: Some(if sent.answer { 57 } else { 64 }),
                dscp: Some(0),
                ecn: Some(0),
                ..packet(&way, start + place * step, sent.flags, sent.octets)
            }
        })
        .collect()
}

/// A handshake, a request, so many pieces of the answer, each acknowledged, and a close from both sides.
fn page(key: &Key, start: u64, pieces: usize) -> Vec<Packet> {
    let mut packets = vec![
        asks(SYN, 74),
        answers(SYN | ACK, 74),
        asks(ACK, 66),
        asks(PSH | ACK, 583),
    ];
    for _ in 0..pieces {
        packets.extend([answers(ACK, 1514), asks(ACK, 66)]);
    }
    packets.extend([
        answers(FIN | ACK, 66),
        asks(FIN | ACK, 66),
        answers(ACK, 66),
    ]);
    sent(key, start, 3_250_000, &packets)
}

fn pages() -> Vec<Packet> {
    let first = tcp(11, 10, 49_152, 443);
    let by_ipv6 = Key {
        source: Address::V6(six(0x11)),
        destination: Address::V6(six(0x80)),
        ..tcp(11, 10, 49_200, 443)
    };
    // The last acknowledgement is lost, and the port is used again.
    let mut again = page(&tcp(13, 12, 50_001, 443), 8 * SECOND, 6);
    again.pop();
    again.extend(page(&tcp(13, 12, 50_001, 443), 9 * SECOND, 2));
    [
        page(&first, 400 * MILLISECOND, 14),
        page(&tcp(12, 10, 49_153, 443), 2 * SECOND, 9),
        page(&by_ipv6, 5 * SECOND, 12),
        again,
    ]
    .concat()
}

/// An address of the block for documents.
fn six(last: u8) -> [u8; 16] {
    let mut bytes = [0; 16];
    bytes[..4].copy_from_slice(&[0x20, 0x01, 0x0D, 0xB8]);
    bytes[15] = last;
    bytes
}

/// Without TCP there are no flags.
fn without_flags(packets: Vec<Packet>) -> Vec<Packet> {
    packets
        .into_iter()
        .map(|packet| Packet {
            tcp_flags: None,
            ..packet
        })
        .collect()
}

/// A question and its answer each.
fn names() -> Vec<Packet> {
    (0..5)
        .flat_map(|number| {
            let question = key(UDP, ports(53_000 + number, 53));
            let key = between(11 + number as u8 % 3, 53, question);
            let start = number * 1_700 * MILLISECOND;
            let both = [asks(0, 78), answers(0, 142)];
            without_flags(sent(&key, start, 21_400_000, &both))
        })
        .collect()
}

fn pings() -> Vec<Packet> {
    let key = between(12, 1, key(ICMP, Endpoints::None));
    let four: Vec<Sent> = (0..4).flat_map(|_| [asks(0, 98), answers(0, 98)]).collect();
    without_flags(sent(&key, 3 * SECOND, 500 * MILLISECOND, &four))
        .into_iter()
        .map(|packet| Packet {
            icmp: Some(if packet.key == key {
                ECHO_REQUEST
            } else {
                ECHO_REPLY
            }),
            ..packet
        })
        .collect()
}

/// Voice both ways, in a VLAN of its own.
fn call() -> Vec<Packet> {
    let voice = between(20, 60, key(UDP, ports(16_384, 16_390)));
    let key = Key {
        vlan: vec![20],
        ..voice
    };
    let turns: Vec<Sent> = (0..16)
        .flat_map(|_| [asks(0, 218), answers(0, 218)])
        .collect();
    without_flags(sent(&key, 12 * SECOND, 10 * MILLISECOND, &turns))
        .into_iter()
        .map(|packet| Packet {
            dscp: Some(VOICE),
            ..packet
        })
        .collect()
}

fn refused_connection() -> Vec<Packet> {
    let both = [asks(SYN, 74), answers(RST | ACK, 60)];
    sent(&tcp(13, 14, 50_100, 8080), 14 * SECOND, 9_870_000, &both)
}

/// Typing, half a minute of silence, and typing again, still open when the capture ends.
fn silent_session() -> Vec<Packet> {
    let key = tcp(11, 22, 49_300, 22);
    let opening = [asks(SYN, 74), answers(SYN | ACK, 74), asks(ACK, 66)];
    let typing: Vec<Sent> = (0..6)
        .flat_map(|_| [asks(PSH | ACK, 102), answers(PSH | ACK, 102)])
        .collect();
    [
        sent(&key, 15 * SECOND, 18_000_000, &opening),
        sent(&key, 16 * SECOND, 140 * MILLISECOND, &typing),
        sent(&key, 50 * SECOND, 140 * MILLISECOND, &typing),
        // Enough time for the rest to be handed out.
        sent(&key, 62 * SECOND, 140 * MILLISECOND, &typing),
    ]
    .concat()
}

#[cfg(test)]
mod tests {
    use super::*;

    #[test]
    fn every_reason_and_no_refusal() {
        let output = office().output();
        for reason in ["IdleTimeout", "Fin", "Rst", "CaptureEnd"] {
            assert!(output.contains(reason));
        }
        assert!(!output.contains("refused"));
    }
}
