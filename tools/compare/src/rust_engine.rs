//! The Rust's engine behind document 01's byte forms.
//!
//! What is here only turns bytes into what the Rust takes and its flows into bytes, with as little
//! work as that needs. The Rust has no capacity, no room and no refusals: it is to be asked only what
//! document 01 does not refuse, with tunnels of kinds that it has.

mod read;
mod write;

use crate::engine::{Answer, Engine, Opening};
use crate::flow::{Flow, TimeResolution};
use crate::net::flow_engine::FlowEngine;

pub use read::key as read_key;

/// The refusal "Packet", for bytes that are no packet of the Rust's.
const PACKET: u64 = 4;

pub struct RustEngine {
    engine: FlowEngine,
    /// Where a record's form is made before it is copied.
    form: Vec<u8>,
}

impl Default for RustEngine {
    fn default() -> Self {
        RustEngine {
            engine: FlowEngine::new(0),
            form: Vec::new(),
        }
    }
}

impl RustEngine {
    /// Writes flows behind the output that is already filled.
    fn hand_out(&mut self, flows: &[Flow], output: &mut [u8], answer: &mut Answer) {
        for flow in flows {
            self.form.clear();
            write::record(&mut self.form, flow);
            let start = answer.output_bytes as usize;
            let end = start + self.form.len();
            assert!(end <= output.len(), "the Rust knows no lack of room");
            output[start..end].copy_from_slice(&self.form);
            answer.output_bytes = end as u64;
            answer.records_written += 1;
        }
    }
}

impl Engine for RustEngine {
    fn name(&self) -> &'static str {
        "Rust"
    }

    /// Swept flows come in the order of its queue, drained ones in the order of its table.
    fn keeps_order(&self) -> bool {
        false
    }

    fn open(&mut self, opening: &Opening) -> u64 {
        let resolution = match opening.resolution {
            0 => TimeResolution::Microseconds,
            _ => TimeResolution::Nanoseconds,
        };
        self.engine = FlowEngine::with_resolution(opening.timeout, resolution);
        0
    }

    fn feed(&mut self, batch: &[u8], output: &mut [u8]) -> Answer {
        let mut answer = Answer::default();
        let mut remains = batch;
        while !remains.is_empty() {
            let Some((observation, rest)) = read::observation(remains) else {
                answer.refusal = PACKET;
                break;
            };
            let outcome = self.engine.accept(observation);
            answer.packets_taken += 1;
            answer.flows_opened += u64::from(outcome.opened_flow);
            self.hand_out(&outcome.completed, output, &mut answer);
            remains = rest;
        }
        answer.batch_bytes_used = (batch.len() - remains.len()) as u64;
        answer
    }

    fn sweep(&mut self, time: u64, output: &mut [u8]) -> Answer {
        let mut answer = Answer::default();
        let flows = self.engine.sweep_expired(time);
        self.hand_out(&flows, output, &mut answer);
        answer
    }

    fn drain(&mut self, output: &mut [u8]) -> Answer {
        let mut answer = Answer::default();
        let flows = self.engine.drain();
        self.hand_out(&flows, output, &mut answer);
        answer
    }
}

#[cfg(test)]
mod tests {
    use super::*;
    use crate::answers::folds;
    use crate::random::Random;
    use crate::records;

    /// The packets of the list of known answers, written as its forms are and read here.
    #[test]
    fn packets_are_read_as_they_were_written() {
        let folds = folds::chosen(&mut Random::new(1));
        for (_, packet) in folds.iter().flat_map(|fold| &fold.packets) {
            let mut form = records::packet(packet);
            form.push(0xFF);
            let (observation, rest) = read::observation(&form).expect("it is a packet");
            assert_eq!(rest, [0xFF]);
            assert_eq!(
                format!("{:?}", observation.facts),
                format!("{:?}", packet.facts)
            );
            assert_eq!(observation.tcp_flags, packet.facts.tcp_flags);
            assert_eq!(observation.key, packet.key);
            assert_eq!(
                (observation.dscp, observation.ecn),
                (packet.dscp, packet.ecn)
            );
            let from = (packet.key.source, packet.key.ports().0);
            assert_eq!(observation.arrived_from, from);
        }
    }

    #[test]
    fn records_are_written_as_in_the_list() {
        for fold in folds::chosen(&mut Random::new(1)) {
            let mut form = Vec::new();
            write::record(&mut form, &Flow::new(fold.key(), fold.record()));
            assert_eq!(form, records::record(&fold.key(), &fold.record()));
        }
    }

    #[test]
    fn a_cut_packet_is_not_read() {
        let form = records::packet(&folds::longest());
        for end in 0..form.len() {
            assert!(read::observation(&form[..end]).is_none());
        }
    }
}
