//! The packet form and the record form, written from document 01, "Byte forms".
//!
//! Nothing here looks at how the port writes or reads them: that is what the lists are to judge.

use crate::flow::{
    DirectionStats, EndReason, FlowKey, FlowRecord, PacketFacts, StartState, TcpFlagCounts,
    TcpFlags, TimeResolution,
};
use crate::forms::{self, Field, join, numbered, optional};

/// The refusal "Record": no record form begins the bytes, and they are no beginning of one.
pub const RECORD: u8 = 8;

/// What a probe hands in. The Rust has these, and more, in its PacketObservation.
#[derive(Clone, Copy)]
pub struct Packet {
    pub facts: PacketFacts,
    pub dscp: Option<u8>,
    pub ecn: Option<u8>,
    pub key: FlowKey,
}

/// The names of a direction's fields in a record form.
pub struct Names {
    pub packets: &'static str,
    pub octets: &'static str,
    pub minimum: &'static str,
    pub maximum: &'static str,
    pub flags: [&'static str; 9],
}

pub const FORWARD: Names = Names {
    packets: "forward packets",
    octets: "forward octets",
    minimum: "forward minimum",
    maximum: "forward maximum",
    flags: [
        "forward fin",
        "forward syn",
        "forward rst",
        "forward psh",
        "forward ack",
        "forward urg",
        "forward ece",
        "forward cwr",
        "forward ns",
    ],
};

pub const REVERSE: Names = Names {
    packets: "reverse packets",
    octets: "reverse octets",
    minimum: "reverse minimum",
    maximum: "reverse maximum",
    flags: [
        "reverse fin",
        "reverse syn",
        "reverse rst",
        "reverse psh",
        "reverse ack",
        "reverse urg",
        "reverse ece",
        "reverse cwr",
        "reverse ns",
    ],
};

/// A packet's form.
pub fn packet(packet: &Packet) -> Vec<u8> {
    join(&packet_fields(packet))
}

/// A packet's form, field by field, in the order of document 01.
pub fn packet_fields(packet: &Packet) -> Vec<Field> {
    let facts = &packet.facts;
    let mut fields = vec![
        numbered("time", facts.time.nanos().into()),
        numbered("frame octets", facts.frame_octets.into()),
        numbered("captured octets", facts.captured_octets.into()),
        optional("ttl", facts.ttl.map(u128::from)),
        optional("tcp flags", facts.tcp_flags.map(mask).map(u128::from)),
        optional("icmp", facts.icmp.map(icmp)),
        optional("dscp", packet.dscp.map(u128::from)),
        optional("ecn", packet.ecn.map(u128::from)),
    ];
    fields.extend(forms::key_fields(&packet.key));
    fields
}

/// From bit 0: fin, syn, rst, psh, ack, urg, ece, cwr, ns.
pub fn mask(flags: TcpFlags) -> u16 {
    let bits = [
        flags.fin, flags.syn, flags.rst, flags.psh, flags.ack, flags.urg, flags.ece, flags.cwr,
        flags.ns,
    ];
    bits.iter()
        .rev()
        .fold(0, |mask, bit| 2 * mask + u16::from(*bit))
}

/// The flags that a mask of nine bits has set.
pub fn flags(mask: u16) -> TcpFlags {
    let bit = |place: u16| mask >> place & 1 == 1;
    TcpFlags {
        fin: bit(0),
        syn: bit(1),
        rst: bit(2),
        psh: bit(3),
        ack: bit(4),
        urg: bit(5),
        ece: bit(6),
        cwr: bit(7),
        ns: bit(8),
    }
}

fn icmp((kind, code): (u8, u8)) -> u128 {
    256 * u128::from(kind) + u128::from(code)
}

/// The form of a finished flow's record.
pub fn record(key: &FlowKey, record: &FlowRecord) -> Vec<u8> {
    join(&record_fields(key, record))
}

/// A record's form, field by field, in the order of document 01.
pub fn record_fields(key: &FlowKey, record: &FlowRecord) -> Vec<Field> {
    let (time, network) = (&record.time, &record.network);
    let mut fields = vec![
        numbered("schema", record.schema.into()),
        numbered("end reason", reason(time.end_reason)),
        numbered("start state", state(time.start_state)),
        numbered("resolution", resolution(time.resolution)),
        numbered("start", time.start.nanos().into()),
        numbered("end", time.end.nanos().into()),
    ];
    fields.extend(direction(&FORWARD, &record.forward));
    fields.extend(direction(&REVERSE, &record.reverse));
    fields.extend([
        optional("ttl minimum", network.ttl.map(|range| range.min.into())),
        optional("ttl maximum", network.ttl.map(|range| range.max.into())),
        optional("dscp", network.dscp.map(u128::from)),
        optional("ecn", network.ecn.map(u128::from)),
        optional("icmp", record.transport.icmp.map(icmp)),
        numbered("captured octets", record.capture.captured_octets.into()),
        numbered("truncated", record.capture.truncated.into()),
    ]);
    fields.extend(forms::key_fields(key));
    fields
}

fn direction(names: &Names, stats: &DirectionStats) -> Vec<Field> {
    let length = stats.packet_length;
    let mut fields = vec![
        numbered(names.packets, stats.packets.into()),
        numbered(names.octets, stats.frame_octets.into()),
        optional(names.minimum, length.map(|range| range.min.into())),
        optional(names.maximum, length.map(|range| range.max.into())),
    ];
    let counts = flag_counts(&stats.tcp_flags);
    fields.extend(
        names
            .flags
            .iter()
            .zip(counts)
            .map(|(name, count)| numbered(name, count.into())),
    );
    fields
}

fn flag_counts(counts: &TcpFlagCounts) -> [u64; 9] {
    [
        counts.fin, counts.syn, counts.rst, counts.psh, counts.ack, counts.urg, counts.ece,
        counts.cwr, counts.ns,
    ]
}

/// Document 01 has no number for ActiveTimeout, which nothing in the Rust produces.
fn reason(reason: Option<EndReason>) -> u128 {
    match reason.expect("the flow is finished") {
        EndReason::IdleTimeout => 0,
        EndReason::Fin => 1,
        EndReason::Rst => 2,
        EndReason::CaptureEnd => 3,
        EndReason::ActiveTimeout => panic!("document 01 has no such reason"),
    }
}

fn state(state: StartState) -> u128 {
    match state {
        StartState::SynObserved => 0,
        StartState::MidStream => 1,
        StartState::NotApplicable => 2,
    }
}

fn resolution(resolution: TimeResolution) -> u128 {
    match resolution {
        TimeResolution::Microseconds => 0,
        TimeResolution::Nanoseconds => 1,
    }
}

#[cfg(test)]
mod tests {
    use super::*;

    #[test]
    fn a_mask_gives_its_flags() {
        for bits in 0..512 {
            assert_eq!(mask(flags(bits)), bits);
        }
        assert_eq!(
            mask(TcpFlags {
                syn: true,
                ..TcpFlags::default()
            }),
            2
        );
        assert_eq!(
            mask(TcpFlags {
                ns: true,
                ..TcpFlags::default()
            }),
            256
        );
    }
}
