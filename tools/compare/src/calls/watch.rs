//! Sees that calls come to an end.

use std::process;
use std::sync::atomic::{AtomicU64, Ordering};
use std::thread;
use std::time::Duration;

/// The seed of the case that is running, and how many have run.
static SEED: AtomicU64 = AtomicU64::new(0);
static TURN: AtomicU64 = AtomicU64::new(0);

/// No case takes so long, by far.
const LONGEST: Duration = Duration::from_secs(120);

/// Says that a case begins to run.
pub fn begin(seed: u64) {
    SEED.store(seed, Ordering::Relaxed);
    TURN.fetch_add(1, Ordering::Relaxed);
}

/// From now on, ends the program with 1 if one case runs for too long.
pub fn start() {
    thread::spawn(|| {
        loop {
            let before = TURN.load(Ordering::Relaxed);
            thread::sleep(LONGEST);
            if TURN.load(Ordering::Relaxed) == before {
                let seed = SEED.load(Ordering::Relaxed);
                println!("no end in sight, in the case of seed {seed}");
                process::exit(1);
            }
        }
    });
}
