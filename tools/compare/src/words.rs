//! The numbers that the library has for a record and for a packet, from the model's and the Rust's.
//!
//! A record is 37 words: start, end, start state, resolution, least and greatest TTL, DSCP, ECN, ICMP,
//! captured octets, truncated; then for each direction packets, frame octets, least and greatest
//! length, nine flag counts. A packet is 8: time, frame octets, captured octets, TTL, TCP flags, ICMP,
//! DSCP, ECN. An optional is 0 for absent, else its value plus 1.

use crate::flow::{
    DirectionStats, EndReason, FlowKey, FlowRecord, PacketFacts, StartState, TcpFlagCounts,
    TimeResolution, Timestamp,
};
use crate::model::record::SCHEMA;
use crate::model::{self, Direction, Key};
use crate::records;

pub const WORDS: usize = 37;
pub const DIRECTION_WORDS: usize = 13;

/// Where the words of the forward direction begin.
pub const FORWARD: usize = 11;
pub const REVERSE: usize = FORWARD + DIRECTION_WORDS;

pub type Words = [u64; WORDS];
pub type Facts = [u64; 8];

fn optional(value: Option<u64>) -> u64 {
    value.map_or(0, |value| value + 1)
}

fn present(word: u64) -> Option<u64> {
    word.checked_sub(1)
}

fn all_words(shared: [u64; FORWARD], directions: [[u64; DIRECTION_WORDS]; 2]) -> Words {
    let mut words = [0; WORDS];
    words[..FORWARD].copy_from_slice(&shared);
    words[FORWARD..REVERSE].copy_from_slice(&directions[0]);
    words[REVERSE..].copy_from_slice(&directions[1]);
    words
}

/// The words of the model's record. Its end reason and its key are not among them.
pub fn of_model(record: &model::Record) -> Words {
    let shared = [
        record.start,
        record.end,
        record.start_state,
        record.resolution,
        optional(record.ttl_minimum),
        optional(record.ttl_maximum),
        optional(record.dscp),
        optional(record.ecn),
        optional(record.icmp),
        record.captured_octets,
        record.truncated,
    ];
    all_words(
        shared,
        [&record.forward, &record.reverse].map(direction_of_model),
    )
}

fn direction_of_model(direction: &Direction) -> [u64; DIRECTION_WORDS] {
    let mut words = [0; DIRECTION_WORDS];
    words[0] = direction.packets;
    words[1] = direction.octets;
    words[2] = optional(direction.length_minimum);
    words[3] = optional(direction.length_maximum);
    words[4..].copy_from_slice(&direction.flags);
    words
}

/// The model's record with these words, in range or not.
pub fn to_model(words: &Words, end_reason: Option<u64>, key: Key) -> model::Record {
    model::Record {
        schema: SCHEMA,
        end_reason,
        start: words[0],
        end: words[1],
        start_state: words[2],
        resolution: words[3],
        ttl_minimum: present(words[4]),
        ttl_maximum: present(words[5]),
        dscp: present(words[6]),
        ecn: present(words[7]),
        icmp: present(words[8]),
        captured_octets: words[9],
        truncated: words[10],
        forward: direction_to_model(&words[FORWARD..REVERSE]),
        reverse: direction_to_model(&words[REVERSE..]),
        key,
    }
}

fn direction_to_model(words: &[u64]) -> Direction {
    Direction {
        packets: words[0],
        octets: words[1],
        length_minimum: present(words[2]),
        length_maximum: present(words[3]),
        flags: std::array::from_fn(|flag| words[4 + flag]),
    }
}

/// The words of the Rust's record.
pub fn of_rust(record: &FlowRecord) -> Words {
    let (time, network) = (&record.time, &record.network);
    let shared = [
        time.start.nanos(),
        time.end.nanos(),
        match time.start_state {
            StartState::SynObserved => 0,
            StartState::MidStream => 1,
            StartState::NotApplicable => 2,
        },
        match time.resolution {
            TimeResolution::Microseconds => 0,
            TimeResolution::Nanoseconds => 1,
        },
        optional(network.ttl.map(|range| range.min.into())),
        optional(network.ttl.map(|range| range.max.into())),
        optional(network.dscp.map(u64::from)),
        optional(network.ecn.map(u64::from)),
        optional(record.transport.icmp.map(icmp)),
        record.capture.captured_octets,
        record.capture.truncated.into(),
    ];
    all_words(
        shared,
        [&record.forward, &record.reverse].map(direction_of_rust),
    )
}

fn icmp((kind, code): (u8, u8)) -> u64 {
    256 * u64::from(kind) + u64::from(code)
}

fn direction_of_rust(stats: &DirectionStats) -> [u64; DIRECTION_WORDS] {
    let length = stats.packet_length;
    let TcpFlagCounts {
        fin,
        syn,
        rst,
        psh,
        ack,
        urg,
        ece,
        cwr,
        ns,
    } = stats.tcp_flags;
    [
        stats.packets,
        stats.frame_octets,
        optional(length.map(|range| range.min.into())),
        optional(length.map(|range| range.max.into())),
        fin,
        syn,
        rst,
        psh,
        ack,
        urg,
        ece,
        cwr,
        ns,
    ]
}

/// The number of the Rust's end reason. Document 01 has none for ActiveTimeout.
pub fn reason(reason: EndReason) -> Option<u64> {
    match reason {
        EndReason::IdleTimeout => Some(0),
        EndReason::Fin => Some(1),
        EndReason::Rst => Some(2),
        EndReason::CaptureEnd => Some(3),
        EndReason::ActiveTimeout => None,
    }
}

/// The numbers of the model's packet, without its key.
pub fn facts_of_model(packet: &model::Packet) -> Facts {
    [
        packet.time,
        packet.frame_octets,
        packet.captured_octets,
        optional(packet.ttl),
        optional(packet.tcp_flags),
        optional(packet.icmp),
        optional(packet.dscp),
        optional(packet.ecn),
    ]
}

/// The model's packet with these numbers, in range or not.
pub fn facts_to_model(facts: &Facts, key: Key) -> model::Packet {
    let [time, frame, captured, ttl, flags, icmp, dscp, ecn] = *facts;
    model::Packet {
        time,
        frame_octets: frame,
        captured_octets: captured,
        ttl: present(ttl),
        tcp_flags: present(flags),
        icmp: present(icmp),
        dscp: present(dscp),
        ecn: present(ecn),
        key,
    }
}

/// The numbers of the packet that the Rust is driven with.
pub fn facts_of_rust(packet: &records::Packet) -> Facts {
    let facts = &packet.facts;
    [
        facts.time.nanos(),
        facts.frame_octets.into(),
        facts.captured_octets.into(),
        optional(facts.ttl.map(u64::from)),
        optional(facts.tcp_flags.map(|flags| records::mask(flags).into())),
        optional(facts.icmp.map(icmp)),
        optional(packet.dscp.map(u64::from)),
        optional(packet.ecn.map(u64::from)),
    ]
}

/// The packet that the Rust is driven with, if every number is in range.
pub fn facts_to_rust(facts: &Facts, key: FlowKey) -> Option<records::Packet> {
    let [time, frame, captured, ttl, flags, icmp, dscp, ecn] = *facts;
    let mask: Option<u16> = narrow(flags)?;
    if mask.is_some_and(|mask| mask >= 512) {
        return None;
    }
    let icmp: Option<u16> = narrow(icmp)?;
    Some(records::Packet {
        facts: PacketFacts {
            time: Timestamp::from_nanos(time),
            frame_octets: frame.try_into().ok()?,
            captured_octets: captured.try_into().ok()?,
            ttl: narrow(ttl)?,
            tcp_flags: mask.map(records::flags),
            icmp: icmp.map(|icmp| ((icmp >> 8) as u8, icmp as u8)),
        },
        dscp: narrow(dscp)?,
        ecn: narrow(ecn)?,
        key,
    })
}

/// An optional number, or nothing where it is out of range.
fn narrow<T: TryFrom<u64>>(word: u64) -> Option<Option<T>> {
    match present(word) {
        None => Some(None),
        Some(value) => Some(Some(value.try_into().ok()?)),
    }
}

#[cfg(test)]
mod tests {
    use super::*;
    use crate::answers::folds;
    use crate::model::{read_packet, read_record};
    use crate::random::Random;

    #[test]
    fn numbers_out_of_range_are_not_the_rusts() {
        let most = [
            u64::MAX,
            u32::MAX as u64,
            u32::MAX as u64,
            256,
            512,
            65536,
            256,
            256,
        ];
        let key = crate::answers::keys::plainest();
        assert!(facts_to_rust(&most, key).is_some());
        for place in 1..most.len() {
            let mut facts = most;
            facts[place] += 1;
            assert!(facts_to_rust(&facts, key).is_none());
        }
    }

    /// Over the byte forms, which know nothing of words.
    #[test]
    fn the_rust_and_the_model_have_the_same_words() {
        for fold in folds::chosen(&mut Random::new(1)) {
            let form = records::record(&fold.key(), &fold.record());
            let (record, _) = read_record(&form).expect("it is a record");
            let words = of_model(&record);
            assert_eq!(words, of_rust(&fold.record()));
            let back = to_model(&words, record.end_reason, record.key.clone());
            assert_eq!(back, record);
            assert_eq!(record.end_reason, reason(fold.reason));
            for (_, packet) in &fold.packets {
                let (read, _) = read_packet(&records::packet(packet)).expect("it is a packet");
                let facts = facts_of_model(&read);
                assert_eq!(facts, facts_of_rust(packet));
                assert_eq!(facts_to_model(&facts, read.key.clone()), read);
                let back = facts_to_rust(&facts, packet.key).expect("it is in range");
                assert_eq!(records::packet(&back), records::packet(packet));
            }
        }
    }
}
