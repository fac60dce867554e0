//! Prints a case and what failed in it.

use crate::engine::Opening;
use crate::scripts::show::hex;

use super::run::Failure;
use super::{Call, Case};

pub fn case(case: &Case) -> String {
    let mut lines = vec![format!("open: {}", opening(&case.opening))];
    for (place, call) in case.calls.iter().enumerate() {
        lines.push(format!("{place}: {}", one_call(call)));
    }
    lines.join("\n")
}

fn opening(opening: &Opening) -> String {
    format!(
        "{} bytes, capacity {}, timeout {} ms, resolution {}",
        opening.memory, opening.capacity, opening.timeout, opening.resolution
    )
}

fn one_call(call: &Call) -> String {
    match call {
        Call::Feed { batch, room } => format!("feed {}, output {room:?}", hex(batch)),
        Call::Sweep { time, room } => format!("sweep at {time}, output {room:?}"),
        Call::Drain { room } => format!("drain, output {room:?}"),
        Call::OpenAgain(again) => format!("open the same memory: {}", opening(again)),
        Call::OpenOther(other) => format!("open other memory: {}", opening(other)),
        Call::Form(form) => format!("{form:?}"),
        Call::Damage(changes) => format!("damage {changes:?}"),
        Call::Mend => "mend".to_string(),
    }
}

pub fn failure(failure: &Failure) -> String {
    let place = match failure.call {
        Some(call) => format!("call {call}"),
        None => "the opening".to_string(),
    };
    format!("{place}: {}", failure.fault)
}
