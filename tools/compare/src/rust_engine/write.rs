//! Writes a flow that the Rust's engine has finished as a record form.

use std::net::IpAddr;

use crate::flow::{
    DirectionStats, Encapsulation, EndReason, Endpoints, Flow, FlowKey, Range, StartState,
    TimeResolution, VlanTags,
};

/// Puts the flow's record form behind the bytes.
pub fn record(bytes: &mut Vec<u8>, flow: &Flow) {
    let record = &flow.record;
    let time = &record.time;
    number(bytes, record.schema.into());
    number(bytes, reason(time.end_reason));
    number(bytes, start_state(time.start_state));
    number(bytes, resolution(time.resolution));
    number(bytes, time.start.nanos());
    number(bytes, time.end.nanos());
    direction(bytes, &record.forward);
    direction(bytes, &record.reverse);
    range(bytes, record.network.ttl);
    optional(bytes, record.network.dscp);
    optional(bytes, record.network.ecn);
    let icmp = record.transport.icmp;
    optional(
        bytes,
        icmp.map(|(kind, code)| 256 * u32::from(kind) + u32::from(code)),
    );
    number(bytes, record.capture.captured_octets);
    number(bytes, record.capture.truncated.into());
    key(bytes, &flow.key);
}

fn number(bytes: &mut Vec<u8>, value: u64) {
    let mut rest = value;
    while rest > 0x7F {
        bytes.push(0x80 | rest as u8);
        rest >>= 7;
    }
    bytes.push(rest as u8);
}

fn optional(bytes: &mut Vec<u8>, value: Option<impl Into<u64>>) {
    number(bytes, value.map_or(0, |value| value.into() + 1));
}

fn range<T: Into<u64>>(bytes: &mut Vec<u8>, range: Option<Range<T>>) {
    let (min, max) = match range {
        Some(range) => (Some(range.min), Some(range.max)),
        None => (None, None),
    };
    optional(bytes, min);
    optional(bytes, max);
}

/// Document 01 has no number for ActiveTimeout, which nothing in the Rust produces.
fn reason(reason: Option<EndReason>) -> u64 {
    match reason {
        Some(EndReason::IdleTimeout) => 0,
        Some(EndReason::Fin) => 1,
        Some(EndReason::Rst) => 2,
        Some(EndReason::CaptureEnd) => 3,
        Some(EndReason::ActiveTimeout) | None => panic!("document 01 has no such reason"),
    }
}

fn start_state(state: StartState) -> u64 {
    match state {
        StartState::SynObserved => 0,
        StartState::MidStream => 1,
        StartState::NotApplicable => 2,
    }
}

fn resolution(resolution: TimeResolution) -> u64 {
    match resolution {
        TimeResolution::Microseconds => 0,
        TimeResolution::Nanoseconds => 1,
    }
}

fn direction(bytes: &mut Vec<u8>, stats: &DirectionStats) {
    number(bytes, stats.packets);
    number(bytes, stats.frame_octets);
    range(bytes, stats.packet_length);
    let counts = &stats.tcp_flags;
    for count in [
        counts.fin, counts.syn, counts.rst, counts.psh, counts.ack, counts.urg, counts.ece,
        counts.cwr, counts.ns,
    ] {
        number(bytes, count);
    }
}

fn key(bytes: &mut Vec<u8>, key: &FlowKey) {
    number(bytes, key.protocol.into());
    optional(bytes, key.ethertype);
    endpoints(bytes, key.endpoints);
    address(bytes, key.source);
    address(bytes, key.destination);
    bytes.extend_from_slice(&key.source_mac.0);
    bytes.extend_from_slice(&key.destination_mac.0);
    vlan(bytes, &key.vlan);
    encapsulation(bytes, key.encapsulation);
}

fn endpoints(bytes: &mut Vec<u8>, endpoints: Endpoints) {
    match endpoints {
        Endpoints::None => number(bytes, 0),
        Endpoints::Ports {
            source,
            destination,
        } => {
            number(bytes, 1);
            number(bytes, source.into());
            number(bytes, destination.into());
        }
        Endpoints::SecurityAssociation(spi) => {
            number(bytes, 2);
            number(bytes, spi.into());
        }
        Endpoints::GreProtocol(protocol) => {
            number(bytes, 3);
            number(bytes, protocol.into());
        }
    }
}

fn address(bytes: &mut Vec<u8>, address: IpAddr) {
    match address {
        IpAddr::V4(v4) => {
            number(bytes, 4);
            bytes.extend_from_slice(&v4.octets());
        }
        IpAddr::V6(v6) => {
            number(bytes, 6);
            bytes.extend_from_slice(&v6.octets());
        }
    }
}

fn vlan(bytes: &mut Vec<u8>, vlan: &VlanTags) {
    let tags = vlan.tags();
    assert!(tags.len() <= 2, "document 01 has at most two tags");
    number(bytes, tags.len() as u64);
    for tag in tags {
        number(bytes, (*tag).into());
    }
}

fn encapsulation(bytes: &mut Vec<u8>, encapsulation: Option<Encapsulation>) {
    optional(bytes, encapsulation.map(|tunnel| tunnel.kind as u64));
    if let Some(tunnel) = encapsulation {
        assert!(tunnel.outer.is_none(), "document 01 has no outer addresses");
        optional(bytes, tunnel.id);
    }
}
