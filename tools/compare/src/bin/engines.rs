//! Drives the model, the Rust's engine and our library side by side over random scripts, and compares
//! every record and every count. Where there is no library, it says so and goes on without it.
//!
//!     engines [--scripts N] [--seed S]
//!
//! Script I of a run is made from the seed S + I, so that a single one can be run again. Exits with 1
//! at the first difference, after a script that shows it, with every step deleted that can be.

use std::process::ExitCode;

use compare::engine::Engine;
use compare::model::Model;
use compare::options::{self, seed_from_the_clock};
use compare::ours::{self, Ours};
use compare::rust_engine::RustEngine;
use compare::scripts::run::{Difference, run};
use compare::scripts::tally::Tally;
use compare::scripts::{Script, make, show, shrink};

const SCRIPTS: u64 = 2000;

fn main() -> ExitCode {
    let (mut scripts, mut seed) = (SCRIPTS, seed_from_the_clock());
    let numbers = &mut [("--scripts", &mut scripts), ("--seed", &mut seed)];
    if let Err(status) = options::from_command_line("engines [--scripts N] [--seed S]", numbers) {
        return status;
    }
    let names: Vec<&str> = engines().iter().map(|engine| engine.name()).collect();
    println!("seed {seed}; {}", names.join(", "));
    if !ours::AT_HAND {
        ours::missing();
    }
    options::outcome(compare_all(scripts, seed), report)
}

/// The first is the one that the others are compared with.
fn engines() -> Vec<Box<dyn Engine>> {
    let mut engines: Vec<Box<dyn Engine>> =
        vec![Box::new(Model::default()), Box::new(RustEngine::default())];
    if ours::AT_HAND {
        engines.push(Box::new(Ours::default()));
    }
    engines
}

/// What was compared, or the seed of the first script that shows a difference.
fn compare_all(scripts: u64, first_seed: u64) -> Result<Tally, u64> {
    let mut engines = engines();
    let mut tally = Tally::default();
    for place in 0..scripts {
        let seed = first_seed.wrapping_add(place);
        match run(&make::script(seed), &mut engines) {
            Ok(one) => tally.add(&one),
            Err(_) => return Err(seed),
        }
    }
    Ok(tally)
}

/// Prints the seed of a script that shows a difference, then the script shrunk, then both answers.
fn report(seed: u64) {
    println!("a difference, in the script of seed {seed}");
    let script = make::script(seed);
    let shortest = shrink::shrink(&script, |script| differs(script).is_some());
    println!("{} steps of {}:", shortest.steps.len(), script.steps.len());
    println!("{}", show::script(&shortest));
    if let Some(difference) = differs(&shortest) {
        println!("{}", show::difference(&difference));
    }
}

fn differs(script: &Script) -> Option<Box<Difference>> {
    run(script, &mut engines()).err()
}
