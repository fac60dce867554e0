//! Which records and which states are sound.

use super::packet::{FIN, FLAGS};
use super::record::{Direction, Record, SCHEMA};
use super::state::{Flow, State, lateness, memory_needed};

/// Whether a finished record is sound.
pub fn sound_record(record: &Record) -> bool {
    let reason_in_range = record.end_reason.is_some_and(|reason| reason <= 3);
    reason_in_range && sound_but_for_its_reason(record)
}

/// "fields in range; start at most end; at least one packet; ... TTL bounds both present or both
/// absent; minima at most maxima; both directions' packets together, and octets together, below 2^64"
pub fn sound_but_for_its_reason(record: &Record) -> bool {
    let (forward, reverse) = (&record.forward, &record.reverse);
    let packets = u128::from(forward.packets) + u128::from(reverse.packets);
    let octets = u128::from(forward.octets) + u128::from(reverse.octets);
    fields_in_range(record)
        && record.start <= record.end
        && packets >= 1
        && sound_direction(forward)
        && sound_direction(reverse)
        && is_range(record.ttl_minimum, record.ttl_maximum)
        && packets < 1 << 64
        && octets < 1 << 64
}

fn fields_in_range(record: &Record) -> bool {
    let is_8_bit = |value: Option<u64>| value.is_none_or(|value| value < 1 << 8);
    record.schema == SCHEMA
        && record.start_state <= 2
        && record.resolution <= 1
        && lengths_in_range(&record.forward)
        && lengths_in_range(&record.reverse)
        && is_8_bit(record.ttl_minimum)
        && is_8_bit(record.ttl_maximum)
        && is_8_bit(record.dscp)
        && is_8_bit(record.ecn)
        && record.icmp.is_none_or(|icmp| icmp < 1 << 16)
        && record.truncated <= 1
        && record.key.in_range()
}

fn lengths_in_range(direction: &Direction) -> bool {
    let is_32_bit = |value: Option<u64>| value.is_none_or(|value| value < 1 << 32);
    is_32_bit(direction.length_minimum) && is_32_bit(direction.length_maximum)
}

/// "a direction has a length range exactly if it has packets; without packets its octets and flag
/// counts are 0; each flag count at most its packets"
fn sound_direction(direction: &Direction) -> bool {
    let has_packets = direction.packets > 0;
    is_range(direction.length_minimum, direction.length_maximum)
        && direction.length_minimum.is_some() == has_packets
        && (has_packets || direction.octets == 0)
        && (has_packets || direction.flags == [0; FLAGS])
        && direction
            .flags
            .iter()
            .all(|count| *count <= direction.packets)
}

/// Both bounds, in order, or neither.
fn is_range(minimum: Option<u64>, maximum: Option<u64>) -> bool {
    match (minimum, maximum) {
        (Some(minimum), Some(maximum)) => minimum <= maximum,
        (None, None) => true,
        _ => false,
    }
}

/// "memory long enough for its stored capacity, itself 1 to 4096; T, L and resolution that opening can
/// give; W 0 if timeout is 0; every flow's record sound, end reason aside, and a direction's FIN mark
/// set exactly if its fin count is above 0; no key twice; no flow under another's reversed key,
/// associations apart"
///
/// The model has no expiry queue. Its list has no end of its own, so that no more flows than capacity
/// is one more condition here.
pub fn sound_state(state: &State) -> bool {
    (1..=4096).contains(&state.capacity)
        && state.memory >= memory_needed(state.capacity)
        && is_timeout(state.timeout)
        && state.lateness == lateness(state.timeout)
        && state.resolution <= 1
        && (state.timeout > 0 || state.clock == 0)
        && state.flows.len() as u64 <= state.capacity
        && state.flows.iter().all(sound_flow)
        && no_two_meet(&state.flows)
}

/// Whole milliseconds, or held at the top.
fn is_timeout(nanoseconds: u64) -> bool {
    nanoseconds.is_multiple_of(1_000_000) || nanoseconds == u64::MAX
}

fn sound_flow(flow: &Flow) -> bool {
    let record = &flow.record;
    sound_but_for_its_reason(record)
        && flow.forward_fin == (record.forward.flags[FIN] > 0)
        && flow.reverse_fin == (record.reverse.flags[FIN] > 0)
}

fn no_two_meet(flows: &[Flow]) -> bool {
    flows.iter().enumerate().all(|(place, flow)| {
        let key = &flow.record.key;
        let reversed = key.reversed();
        flows[..place].iter().all(|other| {
            let other = &other.record.key;
            other != key && (key.is_association() || *other != reversed)
        })
    })
}
