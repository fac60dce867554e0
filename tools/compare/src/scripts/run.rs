//! Runs a script on several engines, and compares what they answer.

use std::panic::{AssertUnwindSafe, catch_unwind};

use crate::engine::{Answer, Engine};
use crate::model::read_record;
use crate::records;

use super::tally::Tally;
use super::{Script, Step};

/// "At most 358 bytes."
const LONGEST_RECORD: usize = 358;

/// What the output holds before a call.
const UNTOUCHED: u8 = 0xA5;

/// What one engine answered to one call.
#[derive(Clone)]
pub struct Seen {
    pub name: &'static str,
    pub answer: Answer,
    pub records: Vec<Vec<u8>>,
    /// What is wrong with its output by itself, if anything is.
    pub fault: Option<&'static str>,
}

/// Two engines that do not agree.
pub struct Difference {
    /// The number of the call, which is that of calls for the last drain, and nothing for the opening.
    pub call: Option<usize>,
    pub seen: [Seen; 2],
}

/// Compares every engine with the first, call by call, and drains them at the end.
pub fn run(script: &Script, engines: &mut [Box<dyn Engine>]) -> Result<Tally, Box<Difference>> {
    let mut tally = Tally {
        scripts: 1,
        ..Tally::default()
    };
    let opened: Vec<Seen> = engines
        .iter_mut()
        .map(|engine| opened(script, engine.as_mut()))
        .collect();
    compare(None, &opened, engines)?;

    let mut output = vec![UNTOUCHED; LONGEST_RECORD * (script.packets() + 1)];
    let calls = script.calls().into_iter().chain([&[Step::Drain][..]]);
    for (place, steps) in calls.enumerate() {
        let mut all = Vec::new();
        for engine in engines.iter_mut() {
            all.push(call(steps, engine.as_mut(), &mut output));
        }
        compare(Some(place), &all, engines)?;
        tally.call(steps, &all[0].answer);
        for (record, _) in all[0].records.iter().flat_map(|form| read_record(form)) {
            tally.record(&record);
        }
    }
    Ok(tally)
}

fn opened(script: &Script, engine: &mut dyn Engine) -> Seen {
    let refusal = engine.open(&script.opening);
    Seen {
        name: engine.name(),
        answer: Answer::refused(refusal),
        records: Vec::new(),
        fault: None,
    }
}

/// Calls one engine. The output is untouched before and after.
fn call(steps: &[Step], engine: &mut dyn Engine, output: &mut [u8]) -> Seen {
    let name = engine.name();
    let called = catch_unwind(AssertUnwindSafe(|| match steps {
        [Step::Sweep(time)] => engine.sweep(*time, output),
        [Step::Drain] => engine.drain(output),
        packets => engine.feed(&batch(packets), output),
    }));
    let Ok(answer) = called else {
        return Seen {
            name,
            answer: Answer::default(),
            records: Vec::new(),
            fault: Some("it panicked"),
        };
    };
    let end = output.len().min(answer.output_bytes as usize);
    let (filled, beyond) = output.split_at_mut(end);
    let (records, rest) = split(filled);
    let fault = fault_in(&answer, records.len(), rest, beyond);
    filled.fill(UNTOUCHED);
    Seen {
        name,
        answer,
        records,
        fault,
    }
}

fn batch(steps: &[Step]) -> Vec<u8> {
    let form = |step: &Step| match step {
        Step::Packet(packet) => records::packet(packet),
        _ => panic!("only packets are fed"),
    };
    steps.iter().flat_map(form).collect()
}

/// What is wrong with an output: records, what is left behind the last, and what is beyond it.
fn fault_in(answer: &Answer, records: usize, rest: &[u8], beyond: &[u8]) -> Option<&'static str> {
    if answer.output_bytes > LONGEST_RECORD as u64 * answer.records_written {
        Some("it fills more of the output than its records can")
    } else if !rest.is_empty() {
        Some("the output is not filled with sound records")
    } else if records as u64 != answer.records_written {
        Some("the number of records is not that of the answer")
    } else if !is_untouched(beyond) {
        Some("the output beyond the records is touched")
    } else {
        None
    }
}

/// Sixteen bytes at a time.
fn is_untouched(bytes: &[u8]) -> bool {
    let (pieces, rest) = bytes.as_chunks::<16>();
    rest.iter().all(|byte| *byte == UNTOUCHED)
        && pieces.iter().all(|piece| *piece == [UNTOUCHED; 16])
}

/// Record forms one behind another, and what is left behind the last.
fn split(mut bytes: &[u8]) -> (Vec<Vec<u8>>, &[u8]) {
    let mut records = Vec::new();
    while let Ok((_, length)) = read_record(bytes) {
        let (form, rest) = bytes.split_at(length);
        records.push(form.to_vec());
        bytes = rest;
    }
    (records, bytes)
}

fn compare(
    call: Option<usize>,
    all: &[Seen],
    engines: &[Box<dyn Engine>],
) -> Result<(), Box<Difference>> {
    let (first, others) = all.split_first().expect("there is an engine");
    for (other, engine) in others.iter().zip(&engines[1..]) {
        let ordered = engines[0].keeps_order() && engine.keeps_order();
        if !agree(first, other, ordered) {
            let seen = [first.clone(), other.clone()];
            return Err(Box::new(Difference { call, seen }));
        }
    }
    Ok(())
}

fn agree(first: &Seen, other: &Seen, ordered: bool) -> bool {
    let records_agree = if ordered {
        first.records == other.records
    } else {
        sorted(&first.records) == sorted(&other.records)
    };
    let no_fault = first.fault.is_none() && other.fault.is_none();
    no_fault && first.answer == other.answer && records_agree
}

fn sorted(records: &[Vec<u8>]) -> Vec<Vec<u8>> {
    let mut records = records.to_vec();
    records.sort();
    records
}

#[cfg(test)]
mod tests {
    use super::*;
    use crate::engine::Opening;
    use crate::model::{Model, read_packet, write_packet};
    use crate::ours::{self, Ours};
    use crate::rust_engine::RustEngine;
    use crate::scripts::make;
    use crate::scripts::shrink::shrink;

    const SYN_AND_RST: u64 = 2 | 4;

    /// A model that does not see the RST of a packet that has SYN too.
    #[derive(Default)]
    struct Blind(Model);

    impl Engine for Blind {
        fn name(&self) -> &'static str {
            "blind"
        }

        fn keeps_order(&self) -> bool {
            true
        }

        fn open(&mut self, opening: &Opening) -> u64 {
            self.0.open(opening)
        }

        fn feed(&mut self, batch: &[u8], output: &mut [u8]) -> Answer {
            let mut seen = Vec::new();
            let mut rest = batch;
            while !rest.is_empty() {
                let (mut packet, length) = read_packet(rest).expect("scripts hold packets");
                packet.tcp_flags = packet.tcp_flags.map(|mask| match mask & SYN_AND_RST {
                    SYN_AND_RST => mask & !4,
                    _ => mask,
                });
                let mut form = [0; 103];
                let length_seen = write_packet(&packet, &mut form).expect("it is in range");
                seen.extend(&form[..length_seen]);
                rest = &rest[length..];
            }
            let answer = self.0.feed(&seen, output);
            Answer {
                batch_bytes_used: batch.len() as u64,
                ..answer
            }
        }

        fn sweep(&mut self, time: u64, output: &mut [u8]) -> Answer {
            self.0.sweep(time, output)
        }

        fn drain(&mut self, output: &mut [u8]) -> Answer {
            self.0.drain(output)
        }
    }

    fn differs(script: &Script) -> bool {
        let mut engines: Vec<Box<dyn Engine>> =
            vec![Box::new(Model::default()), Box::new(Blind::default())];
        run(script, &mut engines).is_err()
    }

    #[test]
    fn a_wrong_engine_is_found_by_one_packet() {
        let script = (0..).map(make::script).find(differs).expect("there is one");
        let shortest = shrink(&script, differs);
        assert_eq!(shortest.steps.len(), 1);
        let Step::Packet(packet) = shortest.steps[0] else {
            panic!("it is not a packet");
        };
        let flags = packet.facts.tcp_flags.expect("it has flags");
        assert!(flags.syn && flags.rst);
    }

    #[test]
    fn the_rust_the_library_and_the_model_agree() {
        let mut engines: Vec<Box<dyn Engine>> =
            vec![Box::new(Model::default()), Box::new(RustEngine::default())];
        if ours::AT_HAND {
            engines.push(Box::new(Ours::default()));
        }
        let mut tally = Tally::default();
        for seed in 0..300 {
            match run(&make::script(seed), &mut engines) {
                Ok(one) => tally.add(&one),
                Err(_) => panic!("the script of seed {seed} shows a difference"),
            }
        }
        assert_eq!(tally.opened, tally.records);
        assert!(tally.reasons.iter().all(|count| *count > 300), "{tally}");
        assert!(tally.both_ways > 300 && tally.several > 100, "{tally}");
    }
}
