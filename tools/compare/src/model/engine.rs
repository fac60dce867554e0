//! The model as one of the engines that are compared.

use crate::engine::{Answer, Engine, Opening};

use super::feed::feed;
use super::state::{State, open};
use super::sweep::{drain, sweep};

/// An engine that is a model. Only an opened one can be called.
#[derive(Default)]
pub struct Model {
    pub state: Option<State>,
}

impl Model {
    fn state(&mut self) -> &mut State {
        self.state.as_mut().expect("the model was opened")
    }
}

impl Engine for Model {
    fn name(&self) -> &'static str {
        "model"
    }

    fn keeps_order(&self) -> bool {
        true
    }

    fn open(&mut self, opening: &Opening) -> u64 {
        let opened = open(
            opening.memory,
            opening.capacity,
            opening.timeout,
            opening.resolution,
        );
        match opened {
            Ok(state) => {
                self.state = Some(state);
                0
            }
            Err(refusal) => refusal.number(),
        }
    }

    fn feed(&mut self, batch: &[u8], output: &mut [u8]) -> Answer {
        feed(self.state(), batch, output)
    }

    fn sweep(&mut self, time: u64, output: &mut [u8]) -> Answer {
        sweep(self.state(), time, output)
    }

    fn drain(&mut self, output: &mut [u8]) -> Answer {
        drain(self.state(), output)
    }
}
