//! Small inputs, one for each thing to be seen in the lines.

mod head;
mod many;
mod refusals;
mod rules;
mod times;

use crate::model::Packet;

use super::input::{ACK, FIN, Input, SYN, conversation, packet};
use super::{Sample, short_script};

/// How many random inputs are kept.
const SCRIPTS: u64 = 12;

/// The packets of document 01's example.
pub fn example_packets() -> Vec<Packet> {
    let a = conversation(50_000);
    let b = a.reversed();
    vec![
        packet(&a, 0, SYN, 60),
        packet(&b, 100, SYN | ACK, 60),
        packet(&a, 200, FIN | ACK, 54),
        packet(&b, 300, FIN | ACK, 54),
        packet(&a, 400, ACK, 54),
    ]
}

/// Document 01's example.
pub fn example() -> Sample {
    Sample::new("example", Input::new(1000, 0).packets(&example_packets()))
}

/// A conversation that leaves nothing open, whatever was before: to be fed again and again.
pub fn round() -> Sample {
    many::round()
}

pub fn cases() -> Vec<Sample> {
    let scripts =
        (1..=SCRIPTS).map(|seed| Sample::new(&format!("random_{seed}"), short_script(seed)));
    [
        vec![example()],
        head::cases(),
        refusals::cases(),
        times::cases(),
        rules::cases(),
        many::cases(),
        scripts.collect(),
    ]
    .into_iter()
    .flatten()
    .collect()
}

#[cfg(test)]
mod tests {
    use super::*;

    #[test]
    fn the_example_is_document_01s() {
        assert_eq!(example().output(), "Fin 0 400 3 2 168 114\ntotal 5 1 1\n");
    }

    #[test]
    fn every_name_once() {
        let mut names: Vec<String> = cases().into_iter().map(|sample| sample.name).collect();
        let count = names.len();
        names.sort();
        names.dedup();
        assert_eq!(names.len(), count);
    }

    #[test]
    fn a_round_again_is_its_lines_again() {
        let once = round();
        let mut twice = once.input.clone();
        twice.extend(&once.input[2..]);
        let lines = |output: &str| {
            let (records, _) = output.rsplit_once("total").expect("there is a total");
            records.to_string()
        };
        let expected = lines(&once.output()).repeat(2);
        assert_eq!(lines(&Sample::new("twice", twice).output()), expected);
    }
}
