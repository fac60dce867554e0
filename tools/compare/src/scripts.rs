//! Scripts that drive engines side by side.

pub mod keys;
pub mod make;
pub mod run;
pub mod show;
pub mod shrink;
pub mod tally;
pub mod times;

use crate::engine::Opening;
use crate::records::Packet;

/// What engines are opened with, and then called with. A drain always follows the last step.
#[derive(Clone)]
pub struct Script {
    pub opening: Opening,
    /// Up to so many packets that follow each other are one batch.
    pub batch: usize,
    pub steps: Vec<Step>,
}

#[derive(Clone, Copy)]
pub enum Step {
    Packet(Packet),
    /// The time is in nanoseconds.
    Sweep(u64),
    Drain,
}

impl Script {
    /// The steps, call by call: packets that are fed together, or one other step.
    pub fn calls(&self) -> Vec<&[Step]> {
        let mut calls = Vec::new();
        let mut rest = &self.steps[..];
        while !rest.is_empty() {
            let most = rest.len().min(self.batch);
            let is_packet = |step: &&Step| matches!(step, Step::Packet(_));
            let packets = rest[..most].iter().take_while(is_packet).count();
            let (call, behind) = rest.split_at(packets.max(1));
            calls.push(call);
            rest = behind;
        }
        calls
    }

    pub fn packets(&self) -> usize {
        let is_packet = |step: &&Step| matches!(step, Step::Packet(_));
        self.steps.iter().filter(is_packet).count()
    }
}

#[cfg(test)]
mod tests {
    use super::*;
    use crate::answers::folds::plainest;

    #[test]
    fn packets_are_fed_together() {
        let (packet, sweep) = (Step::Packet(plainest()), Step::Sweep(0));
        let mut script = Script {
            opening: Opening::with_enough_memory(1, 0, 0),
            batch: 2,
            steps: vec![packet, packet, packet, sweep, packet, Step::Drain, sweep],
        };
        let lengths = |script: &Script| -> Vec<usize> {
            script.calls().iter().map(|call| call.len()).collect()
        };
        assert_eq!(lengths(&script), [2, 1, 1, 1, 1, 1]);
        script.batch = 1;
        assert_eq!(lengths(&script), [1; 7]);
        script.batch = 9;
        assert_eq!(lengths(&script), [3, 1, 1, 1, 1]);
    }
}
