//! Counting a packet on a record.

use super::packet::{FLAGS, Packet, SYN};
use super::record::{Direction, MID_STREAM, NOT_APPLICABLE, Record, SCHEMA, SYN_OBSERVED, Way};
use super::refusal::Refusal;

const TCP: u64 = 6;

/// "Opening: resolution is the engine's setting, or in a host's own record the one it gives; start and
/// end are the packet's time; ... DSCP and ECN are the first packet's, absent included."
///
/// The packet itself is yet to be counted.
pub fn opening(packet: &Packet, resolution: u64) -> Record {
    Record {
        schema: SCHEMA,
        end_reason: None,
        start_state: start_state(packet),
        resolution,
        start: packet.time,
        end: packet.time,
        forward: Direction::default(),
        reverse: Direction::default(),
        ttl_minimum: None,
        ttl_maximum: None,
        dscp: packet.dscp,
        ecn: packet.ecn,
        icmp: None,
        captured_octets: 0,
        truncated: 0,
        key: packet.key.clone(),
    }
}

/// "start state is NotApplicable unless protocol is 6, else SynObserved with SYN, else MidStream"
fn start_state(packet: &Packet) -> u64 {
    if packet.key.protocol != TCP {
        NOT_APPLICABLE
    } else if packet.has(SYN) {
        SYN_OBSERVED
    } else {
        MID_STREAM
    }
}

/// Counts a packet, or refuses with Spent and changes nothing.
pub fn count(record: &mut Record, way: Way, packet: &Packet) -> Result<(), Refusal> {
    if would_pass_the_top(record, packet) {
        return Err(Refusal::Spent);
    }
    count_direction(record.direction(way), packet);
    count_times(record, packet);
    widen(&mut record.ttl_minimum, &mut record.ttl_maximum, packet.ttl);
    // "ICMP keeps the first one present"
    record.icmp = record.icmp.or(packet.icmp);
    // "captured octets add; truncated is set if captured is below frame"
    record.captured_octets += packet.captured_octets;
    if packet.captured_octets < packet.frame_octets {
        record.truncated = 1;
    }
    Ok(())
}

/// "the record that takes the packet would pass 2^64 − 1 in packets or octets of both directions
/// together, or in captured octets"
fn would_pass_the_top(record: &Record, packet: &Packet) -> bool {
    let passes = |numbers: [u64; 3]| {
        let sum: u128 = numbers.iter().map(|number| u128::from(*number)).sum();
        sum > u128::from(u64::MAX)
    };
    let (forward, reverse) = (&record.forward, &record.reverse);
    passes([forward.packets, reverse.packets, 1])
        || passes([forward.octets, reverse.octets, packet.frame_octets])
        || passes([record.captured_octets, packet.captured_octets, 0])
}

/// "add packet, frame octets and set flags to its direction; widen that direction's length range"
fn count_direction(direction: &mut Direction, packet: &Packet) {
    direction.packets += 1;
    direction.octets += packet.frame_octets;
    for flag in 0..FLAGS {
        if packet.has(flag) {
            direction.flags[flag] += 1;
        }
    }
    widen(
        &mut direction.length_minimum,
        &mut direction.length_maximum,
        Some(packet.frame_octets),
    );
}

/// "a SYN at or before start turns MidStream to SynObserved, tested before start moves; start and end
/// widen"
fn count_times(record: &mut Record, packet: &Packet) {
    let is_early_syn = packet.has(SYN) && packet.time <= record.start;
    if is_early_syn && record.start_state == MID_STREAM {
        record.start_state = SYN_OBSERVED;
    }
    record.start = record.start.min(packet.time);
    record.end = record.end.max(packet.time);
}

/// Takes a value, if there is one, into a range.
fn widen(minimum: &mut Option<u64>, maximum: &mut Option<u64>, value: Option<u64>) {
    if let Some(value) = value {
        *minimum = Some(minimum.map_or(value, |least| least.min(value)));
        *maximum = Some(maximum.map_or(value, |greatest| greatest.max(value)));
    }
}
