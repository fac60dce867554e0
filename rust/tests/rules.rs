//! Document 01's examples, through the calls.

mod common;

use braidpuddle::{Endpoints, Key, Packet, Refusal};
use common::{batch, conversation, drain, engine, facts, feed_all, packet, sweep, SECOND};

/// Both FINs of a conversation, from its SYN on: four packets up to time 300.
fn closed_conversation(key: Key) -> Vec<Packet> {
    vec![
        packet(0, key, "S"),
        packet(100, key.reversed(), "SA"),
        packet(200, key, "FA"),
        packet(300, key.reversed(), "FA"),
    ]
}

#[test]
fn the_example_of_replay() {
    let there = conversation(0);
    let back = there.reversed();
    let packets: Vec<Packet> = [
        (0, 60, there, "S"),
        (100, 60, back, "SA"),
        (200, 54, there, "FA"),
        (300, 54, back, "FA"),
        (400, 54, there, "A"),
    ]
    .map(|(time, octets, key, initials)| Packet {
        facts: facts(time, octets, initials),
        key,
    })
    .to_vec();
    let mut engine = engine(32, 1000);
    assert_eq!(feed_all(&mut engine, &packets), ["Fin 0 400 3 2 168 114"]);
    assert_eq!(drain(&mut engine), [""; 0]);
    assert_eq!(engine.open_flows(), 0);
}

#[test]
fn p1_with_timeout_0_none_leaves() {
    let mut engine = engine(2, 0);
    feed_all(&mut engine, &[packet(0, conversation(0), "S")]);
    assert_eq!(sweep(&mut engine, u64::MAX), [""; 0]);
    assert_eq!(engine.open_flows(), 1);
}

#[test]
fn p2_and_p3_a_flow_leaves_at_its_nanosecond() {
    for (timeout, due) in [(1, 1_500_000), (10_000, 11_000_000_000)] {
        let mut engine = engine(2, timeout);
        feed_all(&mut engine, &[packet(0, conversation(0), "S")]);
        assert_eq!(sweep(&mut engine, due - 1), [""; 0]);
        assert_eq!(sweep(&mut engine, due), ["IdleTimeout 0 0 1 0 60 0"]);
    }
}

#[test]
fn p5_a_late_packet_leaves_with_the_next_sweep() {
    let mut engine = engine(32, 1000);
    sweep(&mut engine, 20 * SECOND);
    let late = packet(SECOND, conversation(0), "S");
    assert_eq!(feed_all(&mut engine, &[late]), [""; 0]);
    assert_eq!(engine.open_flows(), 1);
    let line = "IdleTimeout 1000000000 1000000000 1 0 60 0";
    assert_eq!(sweep(&mut engine, SECOND), [line]);
}

#[test]
fn p6_syn_and_rst_on_a_fresh_key() {
    let mut engine = engine(32, 1000);
    let lines = feed_all(&mut engine, &[packet(5, conversation(0), "SR")]);
    assert_eq!(lines, ["Rst 5 5 1 0 60 0"]);
    assert_eq!(engine.open_flows(), 0);
}

#[test]
fn p7_syn_and_rst_after_both_fins() {
    let mut engine = engine(32, 1000);
    let key = conversation(0);
    let mut packets = closed_conversation(key);
    packets.push(packet(400, key, "SR"));
    assert_eq!(feed_all(&mut engine, &packets), ["Fin 0 300 2 2 120 120"]);
    assert_eq!(engine.open_flows(), 1);
    assert_eq!(drain(&mut engine), ["CaptureEnd 400 400 1 0 60 0"]);
}

#[test]
fn p8_rst_without_syn_after_both_fins() {
    let mut engine = engine(32, 1000);
    let key = conversation(0);
    let mut packets = closed_conversation(key);
    packets.push(packet(400, key, "R"));
    assert_eq!(feed_all(&mut engine, &packets), ["Rst 0 400 3 2 180 120"]);
}

#[test]
fn p9_a_key_that_is_its_own_reverse() {
    let address = "10.0.0.1".parse().unwrap();
    let ports = Endpoints::Ports {
        source: 7,
        destination: 7,
    };
    let key = Key::new(6, address, address, ports);
    assert_eq!(key, key.reversed());
    let mut engine = engine(32, 1000);
    let packets = [packet(0, key, "F"), packet(1, key, "F")];
    assert_eq!(feed_all(&mut engine, &packets), [""; 0]);
    assert_eq!(engine.open_flows(), 1);
}

#[test]
fn p11_a_full_engine_takes_a_syn_after_both_fins() {
    let mut engine = engine(1, 1000);
    let key = conversation(0);
    feed_all(&mut engine, &closed_conversation(key));
    let mut out = vec![0; engine.room_for_one()];

    let before = engine.clone();
    let other = batch(&[packet(400, conversation(1), "S")]);
    let fed = engine.feed(&other, &mut out);
    assert_eq!(fed.refusal, Some(Refusal::Full));
    assert_eq!(
        (fed.packets, fed.used, fed.opened, fed.records),
        (0, 0, 0, 0)
    );
    assert!(engine == before);

    let again = feed_all(&mut engine, &[packet(400, key, "S")]);
    assert_eq!(again, ["Fin 0 300 2 2 120 120"]);
    assert_eq!(engine.open_flows(), 1);
}

#[test]
fn an_association_has_no_reverse() {
    let key = Key::new(
        50,
        "10.0.0.1".parse().unwrap(),
        "10.0.0.2".parse().unwrap(),
        Endpoints::SecurityAssociation(99),
    );
    let mut engine = engine(32, 1000);
    feed_all(
        &mut engine,
        &[packet(0, key, ""), packet(1, key.reversed(), "")],
    );
    assert_eq!(engine.open_flows(), 2);
    assert_eq!(key.shard(64), key.reversed().shard(64));
}
