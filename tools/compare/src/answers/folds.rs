//! Packets that are counted on one record, and the record that the Rust makes of them.

use crate::answers::keys;
use crate::flow::{
    Direction, EndReason, FlowKey, FlowRecord, PacketFacts, StartState, TimeResolution, Timestamp,
};
use crate::random::Random;
use crate::records::{Packet, flags};

/// How many folds are taken at random, after the chosen ones.
const AT_RANDOM: usize = 110;
const MOST_PACKETS: usize = 8;

const TCP: u8 = 6;
const OTHER_PROTOCOLS: [u8; 7] = [0, 1, 5, 7, 17, 58, 255];

const SYN: u16 = 1 << 1;
const ACK: u16 = 1 << 4;

/// All that the Rust's time.rs has, but for ActiveTimeout.
const REASONS: [EndReason; 4] = [
    EndReason::IdleTimeout,
    EndReason::Fin,
    EndReason::Rst,
    EndReason::CaptureEnd,
];

/// Packets in the order of their delivery, the first forward, and how their flow ends.
#[derive(Clone)]
pub struct Fold {
    pub resolution: TimeResolution,
    pub packets: Vec<(Direction, Packet)>,
    pub reason: EndReason,
}

impl Fold {
    /// What the flow is kept under.
    pub fn key(&self) -> FlowKey {
        self.packets[0].1.key
    }

    /// The finished record, made by the Rust.
    pub fn record(&self) -> FlowRecord {
        let (way, first) = &self.packets[0];
        assert_eq!(*way, Direction::Forward);
        let mut record = open_record(first, self.resolution);
        for (direction, packet) in &self.packets {
            record.observe(*direction, packet.facts);
        }
        record.close(self.reason);
        record
    }
}

/// As `open_record` of the Rust's flow_engine.rs, which keeps it to itself.
pub fn open_record(first: &Packet, resolution: TimeResolution) -> FlowRecord {
    let start_state = if first.key.protocol == TCP {
        match first.facts.tcp_flags {
            Some(flags) if flags.syn => StartState::SynObserved,
            _ => StartState::MidStream,
        }
    } else {
        StartState::NotApplicable
    };
    let mut record = FlowRecord::open(first.facts.time, resolution, start_state);
    record.network.dscp = first.dscp;
    record.network.ecn = first.ecn;
    record
}

/// All folds of the list.
pub fn chosen(random: &mut Random) -> Vec<Fold> {
    let mut folds = vec![of_one(plainest()), of_one(longest())];
    folds.extend(late_syns(random));
    folds.extend((0..AT_RANDOM).map(|_| any_fold(random)));
    for (turn, fold) in folds.iter_mut().enumerate() {
        fold.reason = REASONS[turn % REASONS.len()];
    }
    folds
}

fn of_one(packet: Packet) -> Fold {
    Fold {
        resolution: TimeResolution::Microseconds,
        packets: vec![(Direction::Forward, packet)],
        reason: REASONS[0],
    }
}

/// The packet with the shortest form.
pub fn plainest() -> Packet {
    Packet {
        facts: PacketFacts {
            time: Timestamp::from_nanos(0),
            frame_octets: 0,
            captured_octets: 0,
            ttl: None,
            tcp_flags: None,
            icmp: None,
        },
        dscp: None,
        ecn: None,
        key: keys::plainest(),
    }
}

/// The packet with the longest form that the Rust's own kinds of tunnel allow.
pub fn longest() -> Packet {
    Packet {
        facts: PacketFacts {
            time: Timestamp::from_nanos(u64::MAX),
            frame_octets: u32::MAX,
            captured_octets: u32::MAX,
            ttl: Some(255),
            tcp_flags: Some(flags(511)),
            icmp: Some((255, 255)),
        },
        dscp: Some(255),
        ecn: Some(255),
        key: keys::longest(),
    }
}

/// Document 01's P10, in either direction, with the neighbours: an ACK opens at 500 and a SYN
/// follows. One more packet moves the start first, so that the SYN is no longer the earliest.
fn late_syns(random: &mut Random) -> Vec<Fold> {
    let key = keys::typical(random);
    let packet = |time, mask| Packet {
        facts: PacketFacts {
            time: Timestamp::from_nanos(time),
            frame_octets: 60,
            captured_octets: 60,
            ttl: Some(64),
            tcp_flags: Some(flags(mask)),
            icmp: None,
        },
        key,
        ..plainest()
    };
    let opening = (Direction::Forward, packet(500, ACK));
    let mut folds = Vec::new();
    for way in [Direction::Forward, Direction::Reverse] {
        for time in [499, 500, 501] {
            folds.push(vec![opening, (way, facing(packet(time, SYN | ACK), way))]);
        }
        let earlier = (way, facing(packet(400, ACK), way));
        folds.push(vec![opening, earlier, (way, facing(packet(450, SYN), way))]);
    }
    let fold = |packets| Fold {
        packets,
        ..of_one(plainest())
    };
    folds.into_iter().map(fold).collect()
}

/// The packet as it travels in this direction of its flow.
fn facing(packet: Packet, direction: Direction) -> Packet {
    match direction {
        Direction::Forward => packet,
        Direction::Reverse => Packet {
            key: packet.key.reversed(),
            ..packet
        },
    }
}

pub fn any_fold(random: &mut Random) -> Fold {
    let key = FlowKey {
        protocol: any_protocol(random),
        ..any_shape(random)
    };
    let times = any_times(random);
    let count = 1 + random.below(MOST_PACKETS);
    let packets = (0..count)
        .map(|place| {
            let reverse = place > 0 && random.one_of(&[false, true]);
            let way = if reverse {
                Direction::Reverse
            } else {
                Direction::Forward
            };
            let time = random.one_of(&times);
            (way, facing(any_packet(random, key, time), way))
        })
        .collect();
    Fold {
        resolution: random.one_of(&[TimeResolution::Microseconds, TimeResolution::Nanoseconds]),
        packets,
        reason: REASONS[0],
    }
}

fn any_protocol(random: &mut Random) -> u8 {
    let other = random.one_of(&OTHER_PROTOCOLS);
    random.one_of(&[TCP, TCP, other])
}

fn any_shape(random: &mut Random) -> FlowKey {
    let (typical, any) = (keys::typical(random), keys::any_key(random));
    random.one_of(&[keys::plainest(), typical, any])
}

/// The times of one fold's packets: few, so that some are equal, and in no order.
fn any_times(random: &mut Random) -> [u64; 4] {
    let base = random.u64() >> random.below(64);
    let near = base.saturating_add(random.below(3) as u64);
    let edge = random.one_of(&[0, 1, u64::MAX - 1, u64::MAX]);
    let other = random.one_of(&[base, edge, random_below_a_second(base)]);
    [base, near, base.saturating_sub(1), other]
}

fn random_below_a_second(base: u64) -> u64 {
    base.saturating_add(base % 1_000_000_000)
}

pub fn any_packet(random: &mut Random, key: FlowKey, time: u64) -> Packet {
    let frame_octets = any_octets(random);
    Packet {
        facts: PacketFacts {
            time: Timestamp::from_nanos(time),
            frame_octets,
            captured_octets: any_captured(random, frame_octets),
            ttl: any_byte(random),
            tcp_flags: any_mask(random).map(flags),
            icmp: any_icmp(random),
        },
        dscp: any_byte(random),
        ecn: any_byte(random),
        key,
    }
}

fn any_octets(random: &mut Random) -> u32 {
    let any = random.u32() >> random.below(32);
    random.one_of(&[0, 1, 60, 127, 128, 1500, 65535, u32::MAX - 1, u32::MAX, any])
}

/// Mostly all of the frame: most folds are to have no cut packet. It may even be more.
fn any_captured(random: &mut Random, frame: u32) -> u32 {
    let any = any_octets(random);
    let one_off = [frame.saturating_sub(1), frame.saturating_add(1)];
    random.one_of(&[frame, frame, frame, frame, one_off[0], one_off[1], 0, any])
}

fn any_byte(random: &mut Random) -> Option<u8> {
    let any = random.u8();
    random.one_of(&[None, None, Some(0), Some(64), Some(255), Some(any)])
}

fn any_mask(random: &mut Random) -> Option<u16> {
    let any = random.u16() % 512;
    let named = random.one_of(&[0, SYN, SYN | ACK, ACK, ACK | 1, 511]);
    random.one_of(&[
        None,
        Some(named),
        Some(named),
        Some(any),
        Some(any | SYN | 1),
    ])
}

fn any_icmp(random: &mut Random) -> Option<(u8, u8)> {
    let any = (random.u8(), random.u8());
    random.one_of(&[
        None,
        None,
        None,
        Some((0, 0)),
        Some((8, 0)),
        Some((255, 255)),
        Some(any),
    ])
}

#[cfg(test)]
mod tests {
    use super::*;
    use crate::records;

    #[test]
    fn document_01s_p10() {
        let folds = late_syns(&mut Random::new(1));
        let states: Vec<StartState> = folds
            .iter()
            .map(|fold| fold.record().time.start_state)
            .collect();
        let (seen, mid) = (StartState::SynObserved, StartState::MidStream);
        assert_eq!(states, [seen, seen, mid, mid, seen, seen, mid, mid]);
    }

    /// Document 01 allows 103 bytes: the Rust's kinds of tunnel take one byte where two are allowed.
    #[test]
    fn lengths_of_packets() {
        assert_eq!(records::packet(&plainest()).len(), 35);
        assert_eq!(records::packet(&longest()).len(), 102);
    }

    /// What the list is to hold at least once, of the folds taken at random.
    #[test]
    fn folds_of_every_kind() {
        let folds = chosen(&mut Random::new(1));
        let some =
            |test: &dyn Fn(&FlowRecord) -> bool| folds.iter().any(|fold| test(&fold.record()));
        for state in [
            StartState::SynObserved,
            StartState::MidStream,
            StartState::NotApplicable,
        ] {
            assert!(some(&|record| record.time.start_state == state));
        }
        for truncated in [false, true] {
            assert!(some(&|record| record.capture.truncated == truncated));
        }
        assert!(some(&|record| record.reverse.is_empty()));
        assert!(some(&|record| record.is_bidirectional()));
        assert!(some(&|record| record.network.ttl.is_none()));
        assert!(some(&|record| record.transport.icmp.is_none()));
        assert!(some(
            &|record| record.time.start.nanos() == 0 && record.packets() > 1
        ));
        assert!(some(
            &|record| record.time.end.nanos() == u64::MAX && record.packets() > 1
        ));
    }
}
