//! What one packet does: "First a sweep at its time. Then" four steps.

use super::counting::{count, opening};
use super::packet::{FIN, Packet, RST, SYN};
use super::record::{FIN_REASON, RST_REASON, Record, Way};
use super::refusal::Refusal;
use super::state::{Flow, State};
use super::sweep::leaving_at;

/// What a packet did.
pub struct Outcome {
    /// Whether it opened a flow.
    pub opened: bool,
    /// "Swept records come first, then the one that ended."
    pub finished: Vec<Record>,
}

/// Takes one packet. A refusal leaves the state half changed: it is for the caller to put it back.
pub fn one_packet(state: &mut State, packet: &Packet) -> Result<Outcome, Refusal> {
    let mut finished = leaving_at(state, packet.time);
    let replaced = end_closed_flow(state, packet);
    let found = taker(state, packet);
    let opened = found.is_none();
    let (place, way) = match found {
        Some(found) => found,
        None => (open_flow(state, packet)?, Way::Forward),
    };
    let flow = &mut state.flows[place];
    let was_closed = flow.has_seen_both_fins();
    take(flow, way, packet)?;
    let ended = match replaced {
        Some(record) => Some(record),
        None => end_taker(state, place, packet, was_closed),
    };
    finished.extend(ended);
    Ok(Outcome { opened, finished })
}

/// "1. If SYN is set and the flow under its key has seen both FINs, or else the one under the reversed
/// key has, that flow ends Fin without this packet."
fn end_closed_flow(state: &mut State, packet: &Packet) -> Option<Record> {
    if !packet.has(SYN) {
        return None;
    }
    let is_closed = |place: &usize| state.flows[*place].has_seen_both_fins();
    let place = state
        .place_of(&packet.key)
        .filter(is_closed)
        .or_else(|| state.place_of(&packet.key.reversed()).filter(is_closed))?;
    Some(state.flows.remove(place).finished(FIN_REASON))
}

/// "2. A flow under its key takes it as forward; else one under the reversed key takes it as reverse,
/// unless the endpoints are a security association"
fn taker(state: &State, packet: &Packet) -> Option<(usize, Way)> {
    if let Some(place) = state.place_of(&packet.key) {
        return Some((place, Way::Forward));
    }
    if packet.key.is_association() {
        return None;
    }
    let place = state.place_of(&packet.key.reversed())?;
    Some((place, Way::Reverse))
}

/// "else a flow opens under its key, forward"; Full if "capacity flows are open".
fn open_flow(state: &mut State, packet: &Packet) -> Result<usize, Refusal> {
    if state.flows.len() as u64 >= state.capacity {
        return Err(Refusal::Full);
    }
    state.flows.push(Flow {
        record: opening(packet, state.resolution),
        forward_fin: false,
        reverse_fin: false,
    });
    Ok(state.flows.len() - 1)
}

/// "3. The packet is counted. FIN marks its direction."
fn take(flow: &mut Flow, way: Way, packet: &Packet) -> Result<(), Refusal> {
    count(&mut flow.record, way, packet)?;
    if packet.has(FIN) {
        match way {
            Way::Forward => flow.forward_fin = true,
            Way::Reverse => flow.reverse_fin = true,
        }
    }
    Ok(())
}

/// "4. If step 1 ended a flow, nothing else ends. Otherwise RST ends the flow Rst; otherwise, if both
/// FINs had been seen before this packet, it ends Fin."
fn end_taker(state: &mut State, place: usize, packet: &Packet, was_closed: bool) -> Option<Record> {
    let reason = if packet.has(RST) {
        RST_REASON
    } else if was_closed {
        FIN_REASON
    } else {
        return None;
    };
    Some(state.flows.remove(place).finished(reason))
}
