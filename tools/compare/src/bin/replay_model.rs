//! Does what `replay` does, on the model: the input comes from standard input, the output goes to
//! standard output.

use std::io::{self, Read, Write};
use std::process::ExitCode;

use compare::replay::replay;

fn main() -> ExitCode {
    match run() {
        Ok(()) => ExitCode::SUCCESS,
        Err(error) => {
            eprintln!("replay_model: {error}");
            ExitCode::FAILURE
        }
    }
}

fn run() -> io::Result<()> {
    let mut input = Vec::new();
    io::stdin().read_to_end(&mut input)?;
    let mut output = io::stdout();
    output.write_all(replay(&input).as_bytes())?;
    output.flush()
}
