//! Measures our library beside the Rust, packets decoded and all, in one process and turn by turn.
//!
//!     bench [--packets N] [--rounds N]
//!
//! Steady: every packet is of an open flow, half of them in reverse. Churn: every sixteenth packet ends
//! its flow with RST, and the conversation's next packet opens another. Of the rounds the fastest
//! counts. It measures and asserts no time.

use std::process::ExitCode;
use std::time::{Duration, Instant};

use compare::engine::{Engine, Opening};
use compare::model::{Address, Packet};
use compare::options;
use compare::ours::{self, Ours};
use compare::random::Random;
use compare::rust_engine::RustEngine;
use compare::samples::input::{ACK, RST, TCP, back, form, key, ports, there};

const FLOWS: [u64; 4] = [16, 256, 1024, 4096];
const BATCHES: [usize; 2] = [64 << 10, 1 << 20];

/// The timeout: no flow of a run is idle for so long.
const TIMEOUT: u64 = 60_000;

/// Room for the records of a batch.
const ROOM: usize = 16 << 20;

/// Between one packet and the next, in nanoseconds.
const STEP: u64 = 1000;

/// One packet of so many ends its flow, where flows come and go.
const PACKETS_TO_AN_END: usize = 16;

struct Load {
    batches: Vec<Vec<u8>>,
    packets: u64,
}

fn main() -> ExitCode {
    let (mut packets, mut rounds) = (400_000, 7);
    let numbers = &mut [("--packets", &mut packets), ("--rounds", &mut rounds)];
    if let Err(status) = options::from_command_line("bench [--packets N] [--rounds N]", numbers) {
        return status;
    }
    if !ours::AT_HAND {
        return ours::missing();
    }
    println!("{packets} packets, the fastest of {rounds} rounds; nanoseconds a packet");
    println!("| Kind | Batch | Open flows | Library | Rust | Ratio |");
    println!("|---|---|---|---|---|---|");
    for churn in [false, true] {
        for batch in BATCHES {
            for flows in FLOWS {
                let load = load(flows, churn, batch, packets);
                line(flows, churn, batch, fastest(flows, &load, rounds));
            }
        }
    }
    ExitCode::SUCCESS
}

fn line(flows: u64, churn: bool, batch: usize, nanos: [f64; 2]) {
    let kind = if churn { "churn" } else { "steady" };
    let [library, rust] = nanos;
    let ratio = rust / library;
    println!(
        "| {kind} | {} KiB | {flows} | {library:.0} | {rust:.0} | {ratio:.2} |",
        batch >> 10
    );
}

/// The library's and the Rust's nanoseconds a packet.
fn fastest(flows: u64, load: &Load, rounds: u64) -> [f64; 2] {
    let mut output = vec![0; ROOM];
    let (mut library, mut rust) = (Ours::default(), RustEngine::default());
    let mut best = [Duration::MAX; 2];
    for _ in 0..rounds {
        best[0] = best[0].min(run(&mut library, flows, load, &mut output));
        best[1] = best[1].min(run(&mut rust, flows, load, &mut output));
    }
    best.map(|time| time.as_nanos() as f64 / load.packets as f64)
}

fn run(engine: &mut dyn Engine, flows: u64, load: &Load, output: &mut [u8]) -> Duration {
    engine.open(&Opening::with_enough_memory(flows, TIMEOUT, 1));
    let mut taken = 0;
    let start = Instant::now();
    for batch in &load.batches {
        let answer = engine.feed(batch, output);
        assert_eq!(answer.refusal, 0, "nothing here is to be refused");
        taken += answer.packets_taken;
    }
    let time = start.elapsed();
    assert_eq!(taken, load.packets);
    time
}

/// Every flow's first packet, then packets of flows at random.
fn load(flows: u64, churn: bool, batch: usize, packets: u64) -> Load {
    let mut random = Random::new(flows);
    let mut batches = vec![Vec::with_capacity(batch)];
    for i in 0..packets {
        let opens = i < flows;
        let flow = if opens {
            i
        } else {
            random.below(flows as usize) as u64
        };
        let ends = churn && !opens && random.below(PACKETS_TO_AN_END) == 0;
        let flags = if ends { ACK | RST } else { ACK };
        let forward = opens || random.below(2) == 0;
        let form = form(&packet(i * STEP, flow, forward, flags));
        let last = batches.last_mut().expect("there is a batch");
        if last.len() + form.len() > batch {
            batches.push(form);
        } else {
            last.extend(form);
        }
    }
    Load { batches, packets }
}

fn packet(time: u64, flow: u64, forward: bool, flags: u64) -> Packet {
    let [high, low] = (flow as u16).to_be_bytes();
    let mut conversation = key(TCP, ports(1024 + flow, 443));
    conversation.source = Address::V4([10, 0, high, low]);
    conversation.source_mac = [2, 0, 0, 0, high, low];
    let side = if forward { there } else { back };
    let mut packet = side(&conversation, 1_700_000_000_000_000_000 + time, flags);
    packet.frame_octets = 60 + flow % 1400;
    packet.captured_octets = packet.frame_octets;
    packet.ttl = Some(64);
    packet.dscp = Some(0);
    packet.ecn = Some(0);
    packet
}
