//! The order of records, and batches of several packets.

use crate::model::examples::{Bench, conversation, packet, packet_on, reasons};
use crate::model::key_form;
use crate::model::packet_form::form;
use crate::model::*;
use crate::records;
use crate::scripts::{Step, make};

const ACK: u64 = 16;

fn ends_and_ports(records: &[Record]) -> Vec<(u64, u64)> {
    let port = |key: &Key| match key.endpoints {
        Endpoints::Ports { source, .. } => source,
        _ => panic!("these keys have ports"),
    };
    records
        .iter()
        .map(|record| (record.end, port(&record.key)))
        .collect()
}

/// The number 300 begins with AC and 129 with 81, so that bytes and numbers are in different orders.
fn three_flows(timeout: u64) -> Bench {
    let mut bench = Bench::open(3, timeout);
    for (port, time) in [(300, 7), (129, 7), (200, 3)] {
        bench.feed(&packet_on(conversation(port), time, ACK));
    }
    bench
}

#[test]
fn swept_records_are_in_order_of_end_then_key_bytes() {
    let records = three_flows(1).sweep(u64::MAX);
    assert_eq!(ends_and_ports(&records), [(3, 200), (7, 129), (7, 300)]);
}

#[test]
fn drained_records_are_in_order_of_key_bytes() {
    let records = three_flows(1).drain();
    assert_eq!(ends_and_ports(&records), [(7, 129), (7, 300), (3, 200)]);
}

#[test]
fn key_bytes_are_compared_from_the_first() {
    let form = |port| key_form::form(&conversation(port));
    assert!(form(129) < form(300) && form(300) < form(200));
    assert!(form(128) < form(127 + 128) && form(127) < form(128));
}

/// "Swept records come first, then the one that ended."
#[test]
fn the_one_that_ended_comes_last() {
    let mut bench = three_flows(1);
    let reset = packet(Way::Forward, u64::MAX, 4);
    let (opened, records) = bench.feed(&reset);
    assert!(opened);
    assert_eq!(reasons(&records), [0, 0, 0, 2]);
}

/// The packets of random scripts, all in one batch and one by one.
#[test]
fn a_batch_is_its_packets_one_behind_another() {
    for seed in 0..200 {
        let script = make::script(seed);
        let opening = &script.opening;
        let packets: Vec<Vec<u8>> = script.steps.iter().flat_map(form_of).collect();
        let mut at_once = Bench::open(opening.capacity, opening.timeout);
        let mut one_by_one = Bench::open(opening.capacity, opening.timeout);
        at_once.room = 358 * (packets.len() + 1);
        one_by_one.room = at_once.room;
        let (answer, records) = at_once.feed_bytes(&packets.concat());
        let mut all = Vec::new();
        let mut opened = 0;
        for packet in &packets {
            let (answer, records) = one_by_one.feed_bytes(packet);
            opened += answer.flows_opened;
            all.extend(records);
        }
        assert_eq!(records, all);
        assert_eq!(
            (answer.refusal, answer.packets_taken),
            (0, packets.len() as u64)
        );
        assert_eq!(answer.flows_opened, opened);
        assert_eq!(at_once.state, one_by_one.state);
    }
}

fn form_of(step: &Step) -> Option<Vec<u8>> {
    match step {
        Step::Packet(packet) => Some(records::packet(packet)),
        _ => None,
    }
}

/// Both directions of an association are flows of their own.
#[test]
fn an_association_has_one_direction() {
    let mut key = conversation(1);
    key.endpoints = Endpoints::Association { spi: 7 };
    let mut bench = Bench::open(2, 0);
    assert!(bench.feed(&packet_on(key.clone(), 0, 1)).0);
    assert!(bench.feed(&packet_on(key.reversed(), 1, 1)).0);
    assert!(!bench.feed(&packet_on(key.clone(), 2, 1)).0);
    assert_eq!(reasons(&bench.drain()), [3, 3]);
    assert!(read_packet(&form(&packet_on(key, 0, 0))).is_ok());
}
