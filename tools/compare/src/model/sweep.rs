//! Sweeping and draining.

use crate::engine::Answer;

use super::key_form;
use super::output::write_all;
use super::record::{CAPTURE_END, IDLE_TIMEOUT, Record};
use super::refusal::Refusal;
use super::sound::sound_state;
use super::state::{Flow, State};

/// "The clock W becomes the greater of W and t. A flow leaves exactly if end + T + L is at most W, in
/// whole numbers. Reason: Fin if both FINs were seen, else IdleTimeout. Order: by end, then key
/// bytes." "With timeout 0 nothing is swept and the clock stays at 0."
pub fn leaving_at(state: &mut State, time: u64) -> Vec<Record> {
    if state.timeout == 0 {
        return Vec::new();
    }
    state.clock = state.clock.max(time);
    let wait = u128::from(state.timeout) + u128::from(state.lateness);
    let clock = u128::from(state.clock);
    let leaves = |flow: &Flow| u128::from(flow.record.end) + wait <= clock;
    let (leaving, staying) = state.flows.drain(..).partition(leaves);
    state.flows = staying;
    let mut records = finished(leaving, IDLE_TIMEOUT);
    records.sort_by_key(|record| (record.end, key_form::form(&record.key)));
    records
}

/// "Drain takes every flow: Fin or CaptureEnd by the same test, in order of key bytes; W stays."
fn all_leaving(state: &mut State) -> Vec<Record> {
    let leaving = state.flows.drain(..).collect();
    let mut records = finished(leaving, CAPTURE_END);
    records.sort_by_key(|record| key_form::form(&record.key));
    records
}

fn finished(flows: Vec<Flow>, otherwise: u64) -> Vec<Record> {
    flows
        .into_iter()
        .map(|flow| flow.finished_fin_or(otherwise))
        .collect()
}

pub fn sweep(state: &mut State, time: u64, output: &mut [u8]) -> Answer {
    hand_out(state, output, |state| leaving_at(state, time))
}

pub fn drain(state: &mut State, output: &mut [u8]) -> Answer {
    hand_out(state, output, all_leaving)
}

/// "3, 7 for sweep, drain": a refusal leaves the state and the output as they were.
fn hand_out(
    state: &mut State,
    output: &mut [u8],
    leaving: impl FnOnce(&mut State) -> Vec<Record>,
) -> Answer {
    if !sound_state(state) {
        return Answer::refused(Refusal::Damaged.number());
    }
    let mut after = state.clone();
    let records = leaving(&mut after);
    match write_all(&records, output) {
        Err(refusal) => Answer::refused(refusal.number()),
        Ok(filled) => {
            *state = after;
            Answer {
                records_written: records.len() as u64,
                output_bytes: filled as u64,
                ..Answer::default()
            }
        }
    }
}
