//! The inputs of `replay` (../tests/replay), through this crate: the same lines come out.

mod common;

use std::fs;
use std::path::{Path, PathBuf};

use braidpuddle::{
    read_number, EndReason, Engine, Millis, Records, Refusal, Resolution, PACKET_MOST,
};

const CAPACITY: u64 = 32;

/// What is printed, and what is added up for the last line.
#[derive(Default)]
struct Printed {
    text: String,
    packets: u64,
    records: u64,
    clean: u64,
}

impl Printed {
    fn line(&mut self, line: &str) {
        self.text.push_str(line);
        self.text.push('\n');
    }

    fn records(&mut self, records: Records<'_>) {
        for record in records {
            let record = record.expect("what a call writes is records");
            self.records += 1;
            self.clean += u64::from(record.reason == EndReason::Fin);
            self.line(&record.to_string());
        }
    }

    fn total(mut self) -> String {
        let total = format!("total {} {} {}", self.packets, self.records, self.clean);
        self.line(&total);
        self.text
    }
}

/// The two settings that an input begins with, and the bytes that they took.
fn settings(input: &[u8]) -> Result<(Millis, Resolution, usize), Refusal> {
    let (timeout, first) = read_number(input, u64::MAX)?;
    let (resolution, second) = read_number(&input[first..], 1)?;
    let resolution = [Resolution::Microseconds, Resolution::Finer][resolution as usize];
    Ok((Millis(timeout), resolution, first + second))
}

/// What `replay` prints of an input, fed in pieces of so many bytes.
fn replayed(input: &[u8], piece: usize) -> String {
    let mut printed = Printed::default();
    let (timeout, resolution, used) = match settings(input) {
        Ok(settings) => settings,
        Err(refusal) => {
            printed.line(&format!("refused {} after 0", refusal.number()));
            return printed.total();
        }
    };
    let mut engine = Engine::open(CAPACITY, timeout, resolution).expect("opened");
    let refusal = feed_in_pieces(&mut engine, &input[used..], piece, &mut printed);
    if let Some(refusal) = refusal {
        let line = format!("refused {} after {}", refusal.number(), printed.packets);
        printed.line(&line);
    }
    let mut out = vec![0; engine.room_for_one()];
    printed.records(engine.drain(&mut out).expect("drained").finished());
    printed.total()
}

/// Feeds pieces, each behind what the last one left, up to a refusal that more bytes or more room cannot cure.
fn feed_in_pieces(
    engine: &mut Engine,
    input: &[u8],
    piece: usize,
    printed: &mut Printed,
) -> Option<Refusal> {
    let mut out = vec![0; engine.room_for_one()];
    let (mut from, mut to) = (0, 0);
    loop {
        let fed = engine.feed(&input[from..to], &mut out);
        from += fed.used;
        printed.packets += fed.packets;
        printed.records(fed.finished());
        match fed.refusal {
            Some(Refusal::Room) => continue,
            None | Some(Refusal::Short) if to < input.len() => {
                to = input.len().min(to + piece);
            }
            refusal => return refusal,
        }
    }
}

fn inputs() -> Vec<PathBuf> {
    let folder = Path::new(env!("CARGO_MANIFEST_DIR")).join("../tests/replay");
    let mut inputs: Vec<PathBuf> = fs::read_dir(folder)
        .expect("the inputs of replay")
        .map(|entry| entry.expect("an entry").path())
        .filter(|path| path.extension().is_some_and(|extension| extension == "bin"))
        .collect();
    inputs.sort();
    inputs
}

#[test]
fn the_inputs_of_replay() {
    let inputs = inputs();
    assert!(!inputs.is_empty());
    for path in inputs {
        let input = fs::read(&path).expect("an input");
        let expected = fs::read_to_string(path.with_extension("out")).expect("its output");
        for piece in [1, 7, PACKET_MOST, usize::MAX >> 1] {
            assert_eq!(replayed(&input, piece), expected, "{}", path.display());
        }
    }
}
