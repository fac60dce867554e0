//! Drives our library beside the model where the Rust cannot judge, over random cases.
//!
//!     calls [--calls N] [--seed S]
//!
//! Runs cases until N calls of the library were compared. Case I of a run is made from the seed S + I.
//! Exits with 1 at the first difference, after its seed and the shortest case found that shows it; with
//! 2 where there is no library.

use std::process::ExitCode;

use compare::calls::run::{Failure, run};
use compare::calls::tally::Tally;
use compare::calls::{Case, make, show, watch};
use compare::options::{self, seed_from_the_clock};
use compare::ours;
use compare::scripts::shrink::shortest;

const CALLS: u64 = 100_000;

fn main() -> ExitCode {
    let (mut calls, mut seed) = (CALLS, seed_from_the_clock());
    let numbers = &mut [("--calls", &mut calls), ("--seed", &mut seed)];
    if let Err(status) = options::from_command_line("calls [--calls N] [--seed S]", numbers) {
        return status;
    }
    if !ours::AT_HAND {
        return ours::missing();
    }
    println!("seed {seed}; model, library");
    watch::start();
    options::outcome(compare_all(calls, seed), report)
}

/// What was compared, or the seed of the first case that shows a difference.
fn compare_all(calls: u64, first_seed: u64) -> Result<Tally, u64> {
    let mut tally = Tally::default();
    let mut seed = first_seed;
    while tally.calls() < calls {
        match differs(seed, &make::case(seed)) {
            Ok(one) => tally.add(&one),
            Err(_) => return Err(seed),
        }
        seed = seed.wrapping_add(1);
    }
    Ok(tally)
}

fn differs(seed: u64, case: &Case) -> Result<Tally, Failure> {
    watch::begin(seed);
    run(case)
}

/// Prints the seed of a case that shows a difference, then the case with every call deleted that can
/// be, then what is wrong.
fn report(seed: u64) {
    println!("a difference, in the case of seed {seed}");
    let case = make::case(seed);
    let with = |calls: &[_]| Case {
        opening: case.opening,
        calls: calls.to_vec(),
    };
    let calls = shortest(&case.calls, |calls| differs(seed, &with(calls)).is_err());
    println!("{} calls of {}:", calls.len(), case.calls.len());
    println!("{}", show::case(&with(&calls)));
    if let Err(failure) = differs(seed, &with(&calls)) {
        println!("{}", show::failure(&failure));
    }
}
