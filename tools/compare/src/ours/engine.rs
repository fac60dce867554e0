//! The library as one of the engines that are compared.

use crate::engine::{Answer, Engine, Opening};

use super::calls::{self, Answered};

/// What state memory holds before it is opened.
const GARBAGE: u8 = 0xC3;

/// An engine that is the library, with the memory that it is lent.
#[derive(Default)]
pub struct Ours {
    state: Vec<u8>,
}

impl Engine for Ours {
    fn name(&self) -> &'static str {
        "library"
    }

    fn keeps_order(&self) -> bool {
        true
    }

    fn open(&mut self, opening: &Opening) -> u64 {
        self.state.clear();
        self.state.resize(opening.memory as usize, GARBAGE);
        calls::open(
            &mut self.state,
            opening.capacity,
            opening.timeout,
            opening.resolution,
        )
    }

    fn feed(&mut self, batch: &[u8], output: &mut [u8]) -> Answer {
        answer(calls::feed(&mut self.state, batch, output))
    }

    fn sweep(&mut self, time: u64, output: &mut [u8]) -> Answer {
        answer(calls::sweep(&mut self.state, time, output))
    }

    fn drain(&mut self, output: &mut [u8]) -> Answer {
        answer(calls::drain(&mut self.state, output))
    }
}

fn answer(answered: Answered) -> Answer {
    let answer = answered.answer();
    assert_eq!(answered.returned, answer.refusal, "one refusal, told twice");
    answer
}
