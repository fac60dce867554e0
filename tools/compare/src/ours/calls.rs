//! The engine's calls.

use crate::engine::Answer;

use super::raw;
use super::{start, start_mut};

/// What stands in the lent answer before a call.
const BEFORE: [u64; 6] = [0x5A5A_5A5A_5A5A_5A5A; 6];

/// What a call returned, and the numbers that it left in the lent answer.
#[derive(Debug, Clone, Copy, PartialEq, Eq)]
pub struct Answered {
    pub returned: u64,
    pub numbers: [u64; 6],
}

impl Answered {
    /// What it is to be for this answer.
    pub fn with(answer: &Answer) -> Self {
        Answered {
            returned: answer.refusal,
            numbers: [
                answer.refusal,
                answer.packets_taken,
                answer.batch_bytes_used,
                answer.flows_opened,
                answer.records_written,
                answer.output_bytes,
            ],
        }
    }

    pub fn answer(&self) -> Answer {
        let [refusal, packets, used, opened, records, bytes] = self.numbers;
        Answer {
            refusal,
            packets_taken: packets,
            batch_bytes_used: used,
            flows_opened: opened,
            records_written: records,
            output_bytes: bytes,
        }
    }
}

pub fn state_bytes(capacity: u64) -> u64 {
    unsafe { raw::braidpuddle_state_bytes(capacity) }
}

pub fn open(state: &mut [u8], capacity: u64, timeout: u64, resolution: u64) -> u64 {
    let length = state.len();
    unsafe { raw::braidpuddle_open(start_mut(state), length, capacity, timeout, resolution) }
}

pub fn feed(state: &mut [u8], batch: &[u8], output: &mut [u8]) -> Answered {
    let mut numbers = BEFORE;
    let (length, room) = (state.len(), output.len());
    let returned = unsafe {
        raw::braidpuddle_feed(
            start_mut(state),
            length,
            start(batch),
            batch.len(),
            start_mut(output),
            room,
            &mut numbers,
        )
    };
    Answered { returned, numbers }
}

pub fn sweep(state: &mut [u8], time: u64, output: &mut [u8]) -> Answered {
    let mut numbers = BEFORE;
    let (length, room) = (state.len(), output.len());
    let returned = unsafe {
        raw::braidpuddle_sweep(
            start_mut(state),
            length,
            time,
            start_mut(output),
            room,
            &mut numbers,
        )
    };
    Answered { returned, numbers }
}

pub fn drain(state: &mut [u8], output: &mut [u8]) -> Answered {
    let mut numbers = BEFORE;
    let (length, room) = (state.len(), output.len());
    let returned = unsafe {
        raw::braidpuddle_drain(
            start_mut(state),
            length,
            start_mut(output),
            room,
            &mut numbers,
        )
    };
    Answered { returned, numbers }
}

/// `NONE` where the state is damaged.
pub fn open_flows(state: &[u8]) -> u64 {
    unsafe { raw::braidpuddle_open_flows(start(state), state.len()) }
}
