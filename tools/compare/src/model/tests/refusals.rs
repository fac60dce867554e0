//! Refusals of an engine's calls.

use crate::engine::Answer;
use crate::model::examples::{Bench, conversation, packet, packet_on, reasons};
use crate::model::packet_form::form;
use crate::model::*;

const FIN: u64 = 1;
const SYN: u64 = 2;
const ACK: u64 = 16;

/// One packet for each field that has a bound, with that field past it.
pub fn packets_out_of_range() -> Vec<Packet> {
    let good = packet(Way::Forward, 0, ACK);
    let with = |change: &dyn Fn(&mut Packet)| {
        let mut packet = good.clone();
        change(&mut packet);
        packet
    };
    let tunnel = |kind, id| Some(Encapsulation { kind, id });
    let ports = |source, destination| Endpoints::Ports {
        source,
        destination,
    };
    vec![
        with(&|packet| packet.frame_octets = 1 << 32),
        with(&|packet| packet.captured_octets = 1 << 32),
        with(&|packet| packet.ttl = Some(256)),
        with(&|packet| packet.tcp_flags = Some(512)),
        with(&|packet| packet.icmp = Some(65536)),
        with(&|packet| packet.dscp = Some(256)),
        with(&|packet| packet.ecn = Some(u64::MAX)),
        with(&|packet| packet.key.protocol = 256),
        with(&|packet| packet.key.ethertype = Some(65536)),
        with(&|packet| packet.key.endpoints = ports(65536, 0)),
        with(&|packet| packet.key.endpoints = ports(0, 65536)),
        with(&|packet| packet.key.endpoints = Endpoints::Association { spi: 1 << 32 }),
        with(&|packet| packet.key.endpoints = Endpoints::Gre { protocol: 65536 }),
        with(&|packet| packet.key.vlan = vec![65536]),
        with(&|packet| packet.key.vlan = vec![1, 2, 3]),
        with(&|packet| packet.key.encapsulation = tunnel(256, None)),
        with(&|packet| packet.key.encapsulation = tunnel(0, Some(1 << 32))),
    ]
}

/// The record with as many packets as it can have.
pub fn full_of(record: &Record) -> Record {
    let mut record = record.clone();
    record.forward.packets = u64::MAX - record.reverse.packets;
    record
}

#[test]
fn opening_is_refused() {
    assert_eq!(open(u64::MAX, 0, 0, 0), Err(Refusal::Capacity));
    assert_eq!(open(u64::MAX, 4097, 0, 0), Err(Refusal::Capacity));
    assert_eq!(open(0, u64::MAX, 0, 0), Err(Refusal::Capacity));
    assert_eq!(open(895, 1, 0, 0), Err(Refusal::Memory));
    assert_eq!(open(256 + 640 * 4096 - 1, 4096, 0, 0), Err(Refusal::Memory));
    let opened = open(896, 1, 0, 0).expect("it is enough");
    assert!(sound_state(&opened) && opened.flows.is_empty());
}

#[test]
fn a_refused_packet_stops_the_batch() {
    let first = form(&packet(Way::Forward, 0, ACK));
    let cut = &first[..first.len() - 1];
    let wrong = [&first[..first.len() - 1], &[0xFF, 0xFF]].concat();
    for (rest, refusal) in [(cut, 9), (&wrong, 4)] {
        let mut bench = Bench::open(1, 0);
        let (answer, records) =
            bench.feed_bytes(&[&first, rest, &first].concat()[..first.len() + rest.len()]);
        let expected = Answer {
            refusal,
            packets_taken: 1,
            batch_bytes_used: first.len() as u64,
            flows_opened: 1,
            ..Answer::default()
        };
        assert_eq!((answer, records.len()), (expected, 0));
    }
}

#[test]
fn an_empty_batch_takes_nothing() {
    assert_eq!(Bench::open(1, 0).feed_bytes(&[]).0, Answer::default());
}

/// Full, though its sweep would have handed out nothing, and the clock stays.
#[test]
fn a_full_table_leaves_the_clock() {
    let mut bench = Bench::open(1, 1000);
    bench.feed(&packet(Way::Forward, 5, ACK));
    let before = bench.state.clone();
    let other = form(&packet_on(conversation(1), 1_000_000, ACK));
    assert_eq!(bench.feed_bytes(&other).0, Answer::refused(5));
    assert_eq!(bench.state, before);
}

/// The packet's own sweep makes the place that it needs.
#[test]
fn a_sweep_makes_place() {
    let mut bench = Bench::open(1, 1000);
    bench.feed(&packet(Way::Forward, 0, ACK));
    let late = packet_on(conversation(1), 1_500_000_000, ACK);
    let (opened, records) = bench.feed(&late);
    assert_eq!((opened, reasons(&records)), (true, vec![0]));
}

/// A record of both directions, with so much of one kind left to count in it.
fn with_left(counted: &Record, packets: u64, octets: u64, captured: u64) -> Record {
    let mut record = counted.clone();
    let (forward, reverse) = (&mut record.forward, &mut record.reverse);
    forward.packets = u64::MAX - reverse.packets - packets;
    forward.octets = u64::MAX - reverse.octets - octets;
    record.captured_octets = u64::MAX - captured;
    record
}

/// "both directions together": a packet of 60 octets fits, or is one too many.
#[test]
fn a_spent_record() {
    let mut bench = Bench::open(2, 0);
    bench.feed(&packet(Way::Forward, 0, ACK));
    bench.feed(&packet(Way::Reverse, 0, ACK));
    let counted = bench.state.flows[0].record.clone();
    let cases = [
        ((1, 60, 60), 0),
        ((0, 60, 60), 6),
        ((1, 59, 60), 6),
        ((1, 60, 59), 6),
    ];
    for ((packets, octets, captured), refusal) in cases {
        for way in [Way::Forward, Way::Reverse] {
            bench.state.flows[0].record = with_left(&counted, packets, octets, captured);
            let before = bench.state.clone();
            let (answer, _) = bench.feed_bytes(&form(&packet(way, 1, ACK)));
            assert_eq!(answer.refusal, refusal);
            assert_eq!(bench.state == before, refusal != 0);
        }
    }
}

/// All records of a packet, sweep or drain, or none.
#[test]
fn room_for_all_or_none() {
    let mut bench = Bench::open(2, 1000);
    bench.feed(&packet(Way::Forward, 0, ACK));
    bench.feed(&packet_on(conversation(1), 1, ACK));
    let before = bench.state.clone();
    let late = form(&packet_on(conversation(2), 10_000_000_000, ACK));
    let (whole, _) = bench.feed_bytes(&late);
    assert_eq!((whole.refusal, whole.records_written), (0, 2));
    let needed = whole.output_bytes as usize;

    bench.state = before.clone();
    let mut output = vec![0xA5; needed - 1];
    assert_eq!(
        feed(&mut bench.state, &late, &mut output),
        Answer::refused(7)
    );
    assert_eq!(
        sweep(&mut bench.state, u64::MAX, &mut output),
        Answer::refused(7)
    );
    assert_eq!(drain(&mut bench.state, &mut output), Answer::refused(7));
    assert_eq!(bench.state, before);
    assert_eq!(output, vec![0xA5; needed - 1]);

    let mut output = vec![0xA5; needed];
    assert_eq!(drain(&mut bench.state, &mut output).records_written, 2);
}

/// Each has one thing wrong.
fn damaged() -> Vec<State> {
    let mut bench = Bench::open(3, 1000);
    bench.feed(&packet(Way::Forward, 5, FIN));
    let sound = bench.state;
    let with = |change: &dyn Fn(&mut State)| {
        let mut state = sound.clone();
        change(&mut state);
        state
    };
    let reversed = |state: &State| {
        let mut flow = state.flows[0].clone();
        flow.record.key = flow.record.key.reversed();
        flow
    };
    vec![
        with(&|state| state.capacity = 0),
        with(&|state| state.capacity = 4097),
        with(&|state| state.memory -= 1),
        with(&|state| state.timeout += 1),
        with(&|state| state.lateness -= 1),
        with(&|state| state.resolution = 2),
        with(&|state| (state.timeout, state.lateness) = (0, 0)),
        with(&|state| state.flows[0].forward_fin = false),
        with(&|state| state.flows[0].reverse_fin = true),
        with(&|state| state.flows[0].record.start = 6),
        with(&|state| state.flows[0].record.key.protocol = 256),
        with(&|state| state.flows.push(state.flows[0].clone())),
        with(&|state| state.flows.push(reversed(state))),
    ]
}

#[test]
fn a_damaged_state_is_refused() {
    for state in damaged() {
        let mut called = state.clone();
        let batch = form(&packet(Way::Forward, 9, SYN));
        for answer in [
            feed(&mut called, &batch, &mut [0; 400]),
            feed(&mut called, &[], &mut [0; 400]),
            sweep(&mut called, u64::MAX, &mut [0; 400]),
            drain(&mut called, &mut []),
        ] {
            assert_eq!(answer, Answer::refused(3), "{state:?}");
        }
        assert_eq!(called, state);
    }
}

/// A sound state that no calls have made: an association's flow that has seen both FINs. "The one
/// under the reversed key" is looked for there too.
#[test]
fn step_1_looks_under_an_associations_reversed_key() {
    let mut key = conversation(1);
    key.endpoints = Endpoints::Association { spi: 7 };
    let mut bench = Bench::open(1, 0);
    bench.feed(&packet_on(key.clone(), 0, FIN));
    let flow = &mut bench.state.flows[0];
    flow.record.reverse = flow.record.forward.clone();
    flow.reverse_fin = true;
    assert!(sound_state(&bench.state));
    let (opened, records) = bench.feed(&packet_on(key.reversed(), 1, SYN));
    assert_eq!((opened, reasons(&records)), (true, vec![1]));
}
