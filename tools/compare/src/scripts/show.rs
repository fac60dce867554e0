//! Prints a script and a difference.

use crate::model::read_record;
use crate::records;

use super::run::{Difference, Seen};
use super::{Script, Step};

pub fn script(script: &Script) -> String {
    let opening = &script.opening;
    let mut lines = vec![format!(
        "open: capacity {}, timeout {} ms, resolution {}",
        opening.capacity, opening.timeout, opening.resolution
    )];
    let calls = script.calls();
    for (place, call) in calls.iter().enumerate() {
        lines.extend(
            call.iter()
                .map(|step| format!("{place}: {}", one_step(step))),
        );
    }
    lines.push(format!(
        "{}: drain, as at the end of every script",
        calls.len()
    ));
    lines.join("\n")
}

fn one_step(step: &Step) -> String {
    match step {
        Step::Packet(packet) => {
            let form = hex(&records::packet(packet));
            let facts = &packet.facts;
            let mask = facts.tcp_flags.map(records::mask);
            format!(
                "packet {form}\n   at {}, flags {}, frame {}, captured {}, {:?}",
                facts.time.nanos(),
                mask.map_or("none".to_string(), flag_names),
                facts.frame_octets,
                facts.captured_octets,
                packet.key
            )
        }
        Step::Sweep(time) => format!("sweep at {time}"),
        Step::Drain => "drain".to_string(),
    }
}

pub fn flag_names(mask: u16) -> String {
    let names = ["fin", "syn", "rst", "psh", "ack", "urg", "ece", "cwr", "ns"];
    let set = names
        .iter()
        .enumerate()
        .filter(|(place, _)| mask >> place & 1 == 1);
    let set: Vec<&str> = set.map(|(_, name)| *name).collect();
    format!("[{}]", set.join(" "))
}

pub fn difference(difference: &Difference) -> String {
    let place = match difference.call {
        Some(call) => format!("at call {call}"),
        None => "at the opening".to_string(),
    };
    let [first, other] = &difference.seen;
    format!(
        "{} and {} differ {place}\n{}\n{}",
        first.name,
        other.name,
        seen(first),
        seen(other)
    )
}

fn seen(seen: &Seen) -> String {
    let mut lines = vec![format!("{}: {:?}", seen.name, seen.answer)];
    lines.extend(seen.fault.map(|fault| format!("   {fault}")));
    for form in &seen.records {
        lines.push(format!("   record {}", hex(form)));
        if let Ok((record, _)) = read_record(form) {
            lines.push(format!("   {record:?}"));
        }
    }
    lines.join("\n")
}

pub fn hex(bytes: &[u8]) -> String {
    bytes.iter().map(|byte| format!("{byte:02x}")).collect()
}
