//! Document 01's examples: P1 to P11, and that of `replay`.

use super::key::{Address, Endpoints, Key};
use super::packet::{FIN, Packet, RST, SYN};
use super::packet_form;
use super::record::{
    CAPTURE_END, FIN_REASON, IDLE_TIMEOUT, MID_STREAM, RST_REASON, Record, SYN_OBSERVED, Way,
};
use super::*;
use crate::engine::Answer;

const F: u64 = 1 << FIN;
const S: u64 = 1 << SYN;
const R: u64 = 1 << RST;
const A: u64 = 1 << 4;

const SECOND: u64 = 1_000_000_000;

/// An engine of its own for each example.
pub struct Bench {
    pub state: State,
    pub room: usize,
}

impl Bench {
    pub fn open(capacity: u64, timeout: u64) -> Self {
        Bench {
            state: open(256 + 640 * capacity, capacity, timeout, 0).expect("it can be opened"),
            room: (capacity as usize + 1) * 358,
        }
    }

    /// The answer, and the records of the filled part of the output.
    pub fn feed_bytes(&mut self, batch: &[u8]) -> (Answer, Vec<Record>) {
        let mut output = vec![0xA5; self.room];
        let answer = feed(&mut self.state, batch, &mut output);
        (answer, records_in(&answer, &output))
    }

    /// Feeds one packet, which is not refused. Whether it opened a flow, and what it finished.
    pub fn feed(&mut self, packet: &Packet) -> (bool, Vec<Record>) {
        let (answer, records) = self.feed_bytes(&packet_form::form(packet));
        assert_eq!((answer.refusal, answer.packets_taken), (0, 1));
        (answer.flows_opened == 1, records)
    }

    pub fn sweep(&mut self, time: u64) -> Vec<Record> {
        let mut output = vec![0xA5; self.room];
        let answer = sweep(&mut self.state, time, &mut output);
        assert_eq!(answer.refusal, 0);
        records_in(&answer, &output)
    }

    pub fn drain(&mut self) -> Vec<Record> {
        let mut output = vec![0xA5; self.room];
        let answer = drain(&mut self.state, &mut output);
        assert_eq!(answer.refusal, 0);
        records_in(&answer, &output)
    }
}

fn records_in(answer: &Answer, output: &[u8]) -> Vec<Record> {
    let (mut filled, beyond) = output.split_at(answer.output_bytes as usize);
    assert!(beyond.iter().all(|byte| *byte == 0xA5));
    let mut records = Vec::new();
    while !filled.is_empty() {
        let (record, length) = read_record(filled).expect("the output holds records");
        records.push(record);
        filled = &filled[length..];
    }
    assert_eq!(records.len() as u64, answer.records_written);
    records
}

/// The key of a TCP conversation, seen from its first side.
pub fn conversation(port: u64) -> Key {
    Key {
        protocol: 6,
        ethertype: None,
        endpoints: Endpoints::Ports {
            source: port,
            destination: 443,
        },
        source: Address::V4([192, 0, 2, 1]),
        destination: Address::V4([192, 0, 2, 2]),
        source_mac: [0; 6],
        destination_mac: [0; 6],
        vlan: Vec::new(),
        encapsulation: None,
    }
}

pub fn packet_on(key: Key, time: u64, flags: u64) -> Packet {
    Packet {
        time,
        frame_octets: 60,
        captured_octets: 60,
        ttl: None,
        tcp_flags: Some(flags),
        icmp: None,
        dscp: None,
        ecn: None,
        key,
    }
}

/// A packet of the one conversation that most examples have.
pub fn packet(way: Way, time: u64, flags: u64) -> Packet {
    let key = conversation(50_000);
    match way {
        Way::Forward => packet_on(key, time, flags),
        Way::Reverse => packet_on(key.reversed(), time, flags),
    }
}

pub fn reasons(records: &[Record]) -> Vec<u64> {
    records
        .iter()
        .flat_map(|record| record.end_reason)
        .collect()
}

/// An engine with one flow that has seen both FINs.
fn closed(capacity: u64) -> Bench {
    let mut bench = Bench::open(capacity, 0);
    assert!(bench.feed(&packet(Way::Forward, 0, F)).0);
    assert_eq!(bench.feed(&packet(Way::Reverse, 1, F)), (false, vec![]));
    bench
}

/// An engine with one flow that ended at 0, after a sweep.
fn left_at_zero(timeout: u64, sweep_time: u64) -> Vec<u64> {
    let mut bench = Bench::open(1, timeout);
    bench.feed(&packet(Way::Forward, 0, A));
    reasons(&bench.sweep(sweep_time))
}

#[test]
fn p1_timeout_0_none_leaves() {
    assert_eq!(left_at_zero(0, u64::MAX), []);
    let mut bench = Bench::open(1, 0);
    bench.sweep(u64::MAX);
    assert_eq!(bench.state.clock, 0);
}

#[test]
fn p2_one_millisecond() {
    assert_eq!(left_at_zero(1, 1_499_999), []);
    assert_eq!(left_at_zero(1, 1_500_000), [IDLE_TIMEOUT]);
}

#[test]
fn p3_ten_seconds() {
    assert_eq!(left_at_zero(10_000, 10_999_999_999), []);
    assert_eq!(left_at_zero(10_000, 11_000_000_000), [IDLE_TIMEOUT]);
}

#[test]
fn p4_the_last_exact_timeout() {
    let exact = Bench::open(1, 18_446_744_073_709).state;
    assert_eq!(exact.timeout, 18_446_744_073_709_000_000);
    let held = Bench::open(1, 18_446_744_073_710).state;
    assert_eq!(held.timeout, u64::MAX);
}

#[test]
fn p5_a_late_packet_opens_a_flow_that_the_next_sweep_hands_out() {
    let mut bench = Bench::open(1, 1000);
    bench.sweep(20 * SECOND);
    assert_eq!(bench.feed(&packet(Way::Forward, SECOND, A)), (true, vec![]));
    assert_eq!(reasons(&bench.sweep(SECOND)), [IDLE_TIMEOUT]);
}

#[test]
fn p6_syn_and_rst_on_a_fresh_key() {
    let (opened, records) = Bench::open(1, 0).feed(&packet(Way::Forward, 0, S | R));
    assert!(opened);
    assert_eq!(reasons(&records), [RST_REASON]);
    assert_eq!(records[0].forward.packets, 1);
}

#[test]
fn p7_syn_and_rst_after_both_fins() {
    for way in [Way::Forward, Way::Reverse] {
        let mut bench = closed(1);
        let (opened, records) = bench.feed(&packet(way, 2, S | R));
        assert!(opened);
        assert_eq!(reasons(&records), [FIN_REASON]);
        assert_eq!(records[0].forward.packets + records[0].reverse.packets, 2);
        assert_eq!(reasons(&bench.drain()), [CAPTURE_END]);
    }
}

#[test]
fn p8_rst_without_syn_after_both_fins() {
    let (opened, records) = closed(1).feed(&packet(Way::Forward, 2, R));
    assert!(!opened);
    assert_eq!(reasons(&records), [RST_REASON]);
    assert_eq!(records[0].forward.packets + records[0].reverse.packets, 3);
}

#[test]
fn p9_a_key_equal_to_its_reverse() {
    let mut key = conversation(443);
    key.destination = key.source;
    assert_eq!(key, key.reversed());
    let mut bench = Bench::open(1, 0);
    assert_eq!(bench.feed(&packet_on(key.clone(), 0, F)), (true, vec![]));
    assert_eq!(bench.feed(&packet_on(key, 1, F)), (false, vec![]));
    assert_eq!(reasons(&bench.drain()), [CAPTURE_END]);
}

#[test]
fn p10_a_late_syn() {
    for (time, state) in [(500, SYN_OBSERVED), (501, MID_STREAM)] {
        let mut bench = Bench::open(1, 0);
        bench.feed(&packet(Way::Forward, 500, A));
        bench.feed(&packet(Way::Forward, time, S));
        assert_eq!(bench.drain()[0].start_state, state);
    }
}

#[test]
fn p11_capacity_one() {
    let other = packet_on(conversation(50_001), 2, A);
    let mut bench = Bench::open(1, 0);
    bench.feed(&packet(Way::Forward, 0, A));
    let (answer, _) = bench.feed_bytes(&packet_form::form(&other));
    assert_eq!(answer, Answer::refused(Refusal::Full.number()));

    let (opened, records) = closed(1).feed(&packet(Way::Forward, 2, S));
    assert!(opened);
    assert_eq!(reasons(&records), [FIN_REASON]);
}

/// What `replay` prints for an input that nothing is refused in.
fn replay(input: &[u8]) -> String {
    let (timeout, length) = read_number(input, u64::MAX).expect("there is a timeout");
    let rest = &input[length..];
    let (resolution, length) = read_number(rest, 1).expect("there is a resolution");
    let mut bench = Bench::open(32, timeout);
    bench.state.resolution = resolution;
    let (answer, mut records) = bench.feed_bytes(&rest[length..]);
    assert_eq!(answer.refusal, 0);
    records.extend(bench.drain());
    let lines: String = records.iter().map(line).collect();
    let fins = reasons(&records)
        .iter()
        .filter(|reason| **reason == FIN_REASON)
        .count();
    let total = format!("total {} {} {fins}\n", answer.packets_taken, records.len());
    lines + &total
}

/// "Line: reason, start, end, forward and reverse packets, forward and reverse octets."
fn line(record: &Record) -> String {
    let names = ["IdleTimeout", "Fin", "Rst", "CaptureEnd"];
    let (forward, reverse) = (&record.forward, &record.reverse);
    format!(
        "{} {} {} {} {} {} {}\n",
        names[record.end_reason.expect("it is finished") as usize],
        record.start,
        record.end,
        forward.packets,
        reverse.packets,
        forward.octets,
        reverse.octets
    )
}

#[test]
fn replays_example() {
    let packets = [
        (Way::Forward, 0, S, 60),
        (Way::Reverse, 100, S | A, 60),
        (Way::Forward, 200, F | A, 54),
        (Way::Reverse, 300, F | A, 54),
        (Way::Forward, 400, A, 54),
    ];
    // The numbers 1000 and 0.
    let mut input = vec![0xE8, 0x07, 0];
    for (way, time, flags, octets) in packets {
        let mut packet = packet(way, time, flags);
        packet.frame_octets = octets;
        packet.captured_octets = octets;
        input.extend(packet_form::form(&packet));
    }
    assert_eq!(replay(&input), "Fin 0 400 3 2 168 114\ntotal 5 1 1\n");
}
