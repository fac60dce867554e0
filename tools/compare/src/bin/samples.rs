//! Writes the inputs of `replay` that are kept, and what it is to print for them by the model.
//!
//!     samples ROOT                 writes them below the repository's root
//!     samples --mixed SEED COUNT   prints an input of so many packets, none of them refused
//!     samples --script SEED        prints a short input of packets that are apt to meet
//!     samples --spoilt SEED        prints the same with bytes changed or cut off

use std::fs;
use std::io::{self, Write};
use std::path::Path;
use std::process::ExitCode;

use compare::samples::cases::{cases, example};
use compare::samples::office::office;
use compare::samples::{Sample, mixed, short_script, spoilt};

const USAGE: &str = "usage: samples ROOT | --mixed SEED COUNT | --script SEED | --spoilt SEED";

fn main() -> ExitCode {
    let arguments: Vec<String> = std::env::args().skip(1).collect();
    let words: Vec<&str> = arguments.iter().map(String::as_str).collect();
    let done = match words.as_slice() {
        ["--mixed", seed, count] => number(seed).and_then(|seed| {
            let count = number(count)? as usize;
            print(mixed(seed, count))
        }),
        ["--script", seed] => number(seed).and_then(|seed| print(short_script(seed))),
        ["--spoilt", seed] => number(seed).and_then(|seed| print(spoilt(seed))),
        [root] => write_all(Path::new(root)),
        _ => Err(io::Error::other(USAGE)),
    };
    match done {
        Ok(()) => ExitCode::SUCCESS,
        Err(error) => {
            eprintln!("samples: {error}");
            ExitCode::FAILURE
        }
    }
}

fn number(word: &str) -> io::Result<u64> {
    word.parse().map_err(io::Error::other)
}

fn print(input: impl Into<Vec<u8>>) -> io::Result<()> {
    io::stdout().write_all(&input.into())
}

/// The example that the gate runs, the office, the tests, and the cuts of the example.
fn write_all(root: &Path) -> io::Result<()> {
    let program = root.join("crates/replay");
    fs::create_dir_all(&program)?;
    let example = example();
    fs::write(program.join("stdin"), &example.input)?;
    fs::write(program.join("stdout"), example.output())?;
    write_sample(&root.join("samples"), &office())?;
    let tests = root.join("tests/replay");
    for sample in cases() {
        write_sample(&tests, &sample)?;
    }
    fs::write(tests.join("example.cuts"), example.outputs_of_cuts())
}

fn write_sample(folder: &Path, sample: &Sample) -> io::Result<()> {
    fs::create_dir_all(folder)?;
    fs::write(folder.join(format!("{}.bin", sample.name)), &sample.input)?;
    fs::write(folder.join(format!("{}.out", sample.name)), sample.output())
}
