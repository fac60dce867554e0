//! Refusals of the calls, batches in pieces, output that is too small, states saved and damaged.

mod common;

use braidpuddle::{Engine, Millis, Nanos, Packet, Refusal, Resolution};
use common::{batch, conversation, drain, engine, feed_all, lines, packet, sweep, SECOND};

/// Packets that each end a flow at once.
fn resets(count: u16) -> Vec<Packet> {
    (0..count)
        .map(|number| packet(u64::from(number), conversation(number), "SR"))
        .collect()
}

#[test]
fn refusals_have_document_01s_numbers_and_names() {
    let names = [
        "Capacity", "Memory", "Damaged", "Packet", "Full", "Spent", "Room", "Record", "Short",
    ];
    for (number, name) in (1..).zip(names) {
        let refusal = Refusal::from_number(number).expect("a refusal");
        assert_eq!((refusal.number(), refusal.name()), (number, name));
        assert!(refusal
            .to_string()
            .starts_with(&format!("refused {number}, {name}: ")));
    }
    assert_eq!(Refusal::from_number(0), None);
    assert_eq!(Refusal::from_number(10), None);
}

#[test]
fn opening_is_refused_for_capacity_then_memory() {
    let open = |bytes: usize, capacity| {
        Engine::open_in(vec![7; bytes], capacity, Millis(5), Resolution::Finer).map(|_| ())
    };
    assert_eq!(open(0, 0), Err(Refusal::Capacity));
    assert_eq!(open(10_000_000, 4097), Err(Refusal::Capacity));
    assert_eq!(open(895, 1), Err(Refusal::Memory));
    assert_eq!(open(896, 1), Ok(()));
    assert_eq!(
        Engine::open(0, Millis(5), Resolution::Finer).err(),
        Some(Refusal::Capacity)
    );
}

#[test]
fn memory_beyond_the_state_is_left_alone() {
    let bytes = Engine::state_bytes(2).unwrap();
    let memory = vec![7; bytes + 100];
    let mut engine = Engine::open_in(memory, 2, Millis(1000), Resolution::Finer).unwrap();
    feed_all(&mut engine, &resets(5));
    drain(&mut engine);
    assert!(engine.state()[bytes..].iter().all(|byte| *byte == 7));
    assert_eq!(engine.capacity(), 2);
}

#[test]
fn an_empty_batch_is_taken() {
    let mut engine = engine(1, 1000);
    let fed = engine.feed(&[], &mut []);
    assert_eq!(fed.refusal, None);
    assert_eq!(
        (fed.packets, fed.used, fed.opened, fed.records),
        (0, 0, 0, 0)
    );
    assert!(engine.drain(&mut []).unwrap().filled.is_empty());
}

#[test]
fn a_spoilt_packet_stops_the_batch_and_changes_nothing() {
    let mut engine = engine(4, 1000);
    let mut bytes = batch(&[packet(0, conversation(0), "S")]);
    let taken = bytes.len();
    // 0 with a needless second group.
    bytes.extend([0x80, 0x00]);
    let mut out = [0; 4000];
    let fed = engine.feed(&bytes, &mut out);
    assert_eq!(fed.refusal, Some(Refusal::Packet));
    assert_eq!((fed.packets, fed.used, fed.opened), (1, taken, 1));

    let before = engine.clone();
    let fed = engine.feed(&bytes[taken..], &mut out);
    assert_eq!(
        (fed.refusal, fed.packets, fed.used),
        (Some(Refusal::Packet), 0, 0)
    );
    assert!(engine == before);
}

#[test]
fn a_cut_batch_is_fed_in_two_pieces() {
    let key = conversation(0);
    let packets = [
        packet(0, key, "S"),
        packet(100, key.reversed(), "SA"),
        packet(200, key, "R"),
    ];
    let bytes = batch(&packets);
    let whole = feed_all(&mut engine(4, 1000), &packets);
    for cut in 0..=bytes.len() {
        assert_eq!(fed_in_two(&bytes, cut), whole, "cut at {cut}");
    }
}

/// What the first piece leaves is fed again with the second.
fn fed_in_two(bytes: &[u8], cut: usize) -> Vec<String> {
    let mut engine = engine(4, 1000);
    let mut out = vec![0; engine.room_for_one()];
    let first = engine.feed(&bytes[..cut], &mut out);
    let used = first.used;
    let mut found = lines(first.finished());
    let expected = (used < cut).then_some(Refusal::Short);
    assert_eq!(first.refusal, expected);
    let second = engine.feed(&bytes[used..], &mut out);
    assert_eq!(second.refusal, None);
    assert_eq!(used + second.used, bytes.len());
    found.extend(lines(second.finished()));
    found
}

#[test]
fn with_too_little_room_the_packet_waits() {
    let packets = resets(3);
    let bytes = batch(&packets);
    let mut whole = vec![0; 4000];
    let all = engine(4, 1000).feed(&bytes, &mut whole).filled.len();
    let mut engine = engine(4, 1000);
    let mut out = vec![0xEE; all - 1];
    let fed = engine.feed(&bytes, &mut out);
    assert_eq!(
        (fed.refusal, fed.packets, fed.records),
        (Some(Refusal::Room), 2, 2)
    );
    let (used, filled) = (fed.used, fed.filled.len());
    assert!(out[filled..].iter().all(|byte| *byte == 0xEE));

    let before = engine.clone();
    let fed = engine.feed(&bytes[used..], &mut []);
    assert_eq!(
        (fed.refusal, fed.packets, fed.used),
        (Some(Refusal::Room), 0, 0)
    );
    assert!(engine == before);

    let fed = engine.feed(&bytes[used..], &mut out);
    assert_eq!((fed.refusal, fed.packets, fed.records), (None, 1, 1));
    assert_eq!(filled + fed.filled.len(), all);
}

#[test]
fn a_sweep_and_a_drain_without_room_change_nothing() {
    let mut engine = engine(4, 1000);
    feed_all(
        &mut engine,
        &[
            packet(0, conversation(0), "S"),
            packet(1, conversation(1), "S"),
        ],
    );
    let before = engine.clone();
    let mut little = [0xEE; 100];
    let swept = engine.sweep(Nanos(9 * SECOND), &mut little).err();
    assert_eq!(swept, Some(Refusal::Room));
    assert_eq!(engine.drain(&mut little).err(), Some(Refusal::Room));
    assert_eq!(little, [0xEE; 100]);
    // Queue entries may be put back elsewhere; what the state means is the same.
    assert_eq!(engine.open_flows(), before.open_flows());
    assert_eq!(sweep(&mut engine.clone(), SECOND), [""; 0]);
    assert_eq!(drain(&mut engine).len(), 2);
}

#[test]
fn a_spent_record_refuses_the_packet() {
    let key = conversation(0);
    let mut engine = engine(1, 1000);
    feed_all(&mut engine, &[packet(0, key, "S")]);
    // The only slot's captured octets (docs/ARCHITECTURE.md, "State memory"): many packets would get there too.
    let captured = 256 + 80 + 9 * 8;
    let mut state = engine.state().to_vec();
    state[captured..captured + 8].fill(0xFF);
    let mut engine = Engine::from_state(state).expect("still sound");

    let before = engine.clone();
    let mut out = vec![0; engine.room_for_one()];
    let fed = engine.feed(&batch(&[packet(1, key, "A")]), &mut out);
    assert_eq!(
        (fed.refusal, fed.packets, fed.used),
        (Some(Refusal::Spent), 0, 0)
    );
    assert!(engine == before);
}

#[test]
fn a_saved_state_goes_on() {
    let mut engine = engine(4, 1000);
    let key = conversation(0);
    feed_all(&mut engine, &[packet(0, key, "S")]);
    let mut again = Engine::from_state(engine.state().to_vec()).expect("sound");
    assert_eq!(again.open_flows(), 1);
    let reset = packet(70, key.reversed(), "R");
    assert_eq!(feed_all(&mut again, &[reset]), ["Rst 0 70 1 1 60 60"]);
}

#[test]
fn a_damaged_state_is_refused() {
    // With capacity 1 the flow can only be in the first slot.
    let mut engine = engine(1, 1000);
    feed_all(&mut engine, &[packet(0, conversation(0), "S")]);
    let sound = engine.state().to_vec();
    let damaged = |change: fn(&mut Vec<u8>)| {
        let mut state = sound.clone();
        change(&mut state);
        Engine::from_state(state).err()
    };
    let refused = Some(Refusal::Damaged);
    assert_eq!(damaged(|_| ()), None);
    assert_eq!(damaged(|state| state.clear()), refused);
    assert_eq!(damaged(|state| state.truncate(895)), refused, "too short");
    assert_eq!(damaged(|state| state[0] = 2), refused, "another layout");
    assert_eq!(damaged(|state| state[8] = 0), refused, "capacity 0");
    assert_eq!(damaged(|state| state[32] = 2), refused, "no resolution");
    assert_eq!(damaged(|state| state[258] = 0xFF), refused, "no key form");
    assert_eq!(
        damaged(|state| state[256 + 80 + 11 * 8] = 0),
        refused,
        "no packet"
    );
}

#[test]
fn a_state_with_any_byte_changed_is_refused_or_works() {
    let mut engine = engine(1, 1000);
    feed_all(&mut engine, &[packet(0, conversation(0), "S")]);
    let sound = engine.state().to_vec();
    let mut refused = 0;
    for place in 0..sound.len() {
        for change in [1, 0x80, 0xFF] {
            let mut state = sound.clone();
            state[place] ^= change;
            match Engine::from_state(state) {
                Ok(mut changed) => assert!(works(&mut changed)),
                Err(refusal) => {
                    assert_eq!(refusal, Refusal::Damaged);
                    refused += 1;
                }
            }
        }
    }
    assert!(refused > 100);
}

/// Whether all that it has open is handed out.
fn works(engine: &mut Engine) -> bool {
    let open = engine.open_flows();
    drain(engine).len() as u64 == open && engine.open_flows() == 0
}

#[test]
fn engines_in_different_threads_have_no_part_in_one_another() {
    let alone = feed_all(&mut engine(8, 1000), &resets(50));
    let threads: Vec<_> = (0..4)
        .map(|_| std::thread::spawn(|| feed_all(&mut engine(8, 1000), &resets(50))))
        .collect();
    for thread in threads {
        assert_eq!(thread.join().expect("no panic"), alone);
    }
}
