//! Compares the library's functions for one key with the Rust's key.rs, and those for a host's own
//! record with the Rust's mod.rs, stats.rs and time.rs and with the model.
//!
//!     keys [--keys N] [--records N] [--seed S]
//!
//! Key I and record I of a run are made from the seed S + I. Exits with 1 at the first difference, after
//! its seed and what was asked, a record with every packet deleted that can be; with 2 where there is no
//! library.

use std::process::ExitCode;

use compare::beside::hosts::{self, Host, any_host};
use compare::beside::keys::{self, any_form};
use compare::options::{self, seed_from_the_clock};
use compare::ours;
use compare::scripts::show::hex;
use compare::scripts::shrink::shortest;

const KEYS: u64 = 100_000;
const RECORDS: u64 = 10_000;

fn main() -> ExitCode {
    let (mut keys, mut records, mut seed) = (KEYS, RECORDS, seed_from_the_clock());
    let numbers = &mut [
        ("--keys", &mut keys),
        ("--records", &mut records),
        ("--seed", &mut seed),
    ];
    let usage = "keys [--keys N] [--records N] [--seed S]";
    if let Err(status) = options::from_command_line(usage, numbers) {
        return status;
    }
    if !ours::AT_HAND {
        return ours::missing();
    }
    println!("seed {seed}; Rust, model, library");
    if compare_keys(keys, seed) && compare_records(records, seed) {
        ExitCode::SUCCESS
    } else {
        ExitCode::FAILURE
    }
}

/// Whether there is no difference.
fn compare_keys(keys: u64, first_seed: u64) -> bool {
    let mut tally = keys::Tally::default();
    for place in 0..keys {
        let seed = first_seed.wrapping_add(place);
        let form = any_form(seed);
        if let Err(fault) = keys::compare(&form, &mut tally) {
            println!("a difference, in the key of seed {seed}: {}", hex(&form));
            println!("{fault}");
            return false;
        }
    }
    println!(
        "no difference: {} keys, {} of them the Rust's, {} no key forms",
        tally.keys, tally.with_the_rust, tally.refused
    );
    true
}

/// Whether there is no difference.
fn compare_records(records: u64, first_seed: u64) -> bool {
    let mut tally = hosts::Tally::default();
    for place in 0..records {
        let seed = first_seed.wrapping_add(place);
        if hosts::compare(&any_host(seed), &mut tally).is_err() {
            report(seed);
            return false;
        }
    }
    let refusals: Vec<String> = tally.refusals.iter().map(u64::to_string).collect();
    println!(
        "no difference: {} hosts' records, {} packets, {} of them counted by the Rust too\n\
         packets by refusal, 0 to 9: {}",
        tally.records,
        tally.packets,
        tally.with_the_rust,
        refusals.join(" ")
    );
    true
}

/// Prints the seed of a record that shows a difference, then the record shrunk, then what is wrong.
fn report(seed: u64) {
    println!("a difference, in the host's record of seed {seed}");
    let host = any_host(seed);
    let with = |steps: &[_]| Host {
        steps: steps.to_vec(),
        ..host.clone()
    };
    let compare = |host: &Host| hosts::compare(host, &mut hosts::Tally::default());
    let steps = shortest(&host.steps, |steps| compare(&with(steps)).is_err());
    println!("{:#?}", with(&steps));
    if let Err(fault) = compare(&with(&steps)) {
        println!("{fault}");
    }
}
