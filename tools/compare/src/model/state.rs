//! The model's state: its settings, its clock and the open flows.

use super::key::Key;
use super::record::{FIN_REASON, Record};
use super::refusal::Refusal;

/// "T is milliseconds times 1,000,000, held at 2^64 − 1."
const NANOSECONDS: u64 = 1_000_000;

/// "L is the lesser of 1,000,000,000 and T / 2."
const MOST_LATENESS: u64 = 1_000_000_000;

#[derive(Debug, Clone, PartialEq, Eq)]
pub struct State {
    pub capacity: u64,
    /// The bytes that it was lent: the model has no use for them.
    pub memory: u64,
    /// T, in nanoseconds: 0 exactly if the timeout is 0.
    pub timeout: u64,
    /// L, in nanoseconds.
    pub lateness: u64,
    pub resolution: u64,
    /// W, in nanoseconds.
    pub clock: u64,
    /// In no order that matters.
    pub flows: Vec<Flow>,
}

/// An open flow. Its key is in its record.
#[derive(Debug, Clone, PartialEq, Eq)]
pub struct Flow {
    pub record: Record,
    pub forward_fin: bool,
    pub reverse_fin: bool,
}

impl Flow {
    pub fn has_seen_both_fins(&self) -> bool {
        self.forward_fin && self.reverse_fin
    }

    /// The record as it is handed out.
    pub fn finished(self, reason: u64) -> Record {
        Record {
            end_reason: Some(reason),
            ..self.record
        }
    }

    /// "Fin if both FINs were seen, else" another reason.
    pub fn finished_fin_or(self, other: u64) -> Record {
        let reason = if self.has_seen_both_fins() {
            FIN_REASON
        } else {
            other
        };
        self.finished(reason)
    }
}

impl State {
    /// Where the flow under this key is.
    pub fn place_of(&self, key: &Key) -> Option<usize> {
        self.flows.iter().position(|flow| flow.record.key == *key)
    }
}

/// "State memory is 256 + 640 × capacity bytes."
pub fn memory_needed(capacity: u64) -> u64 {
    256 + 640 * capacity
}

pub fn lateness(timeout: u64) -> u64 {
    MOST_LATENESS.min(timeout / 2)
}

/// "Opening, unrefused, leaves a sound state with the settings asked for, every clock 0 and no flow
/// open." The timeout is in milliseconds. Resolution 0 is microseconds, any other number finer.
pub fn open(memory: u64, capacity: u64, timeout: u64, resolution: u64) -> Result<State, Refusal> {
    if capacity == 0 || capacity > 4096 {
        return Err(Refusal::Capacity);
    }
    if memory < memory_needed(capacity) {
        return Err(Refusal::Memory);
    }
    let timeout = timeout.saturating_mul(NANOSECONDS);
    Ok(State {
        capacity,
        memory,
        timeout,
        lateness: lateness(timeout),
        resolution: u64::from(resolution != 0),
        clock: 0,
        flows: Vec::new(),
    })
}
