//! A host's own record.

mod common;

use braidpuddle::{
    Bounds, Direction, Facts, HostRecord, Icmp, Nanos, Refusal, Resolution, StartState, TcpFlags,
};
use common::{facts, Random};

#[test]
fn each_packet_is_counted() {
    let first = Facts {
        ttl: Some(64),
        dscp: Some(46),
        ..facts(500, 60, "S")
    };
    let mut record = HostRecord::begin(&first, 6, Resolution::Finer).unwrap();
    let second = Facts {
        captured_octets: 100,
        ttl: Some(50),
        dscp: Some(1),
        icmp: Some(Icmp { kind: 3, code: 1 }),
        ..facts(400, 1500, "AR")
    };
    record.count(Direction::Reverse, &second).unwrap();
    let counts = record.counts();
    assert_eq!((counts.start, counts.end), (Nanos(400), Nanos(500)));
    assert_eq!(counts.start_state, StartState::SynObserved);
    assert_eq!(counts.resolution, Resolution::Finer);
    let ttl = Bounds {
        least: 50,
        greatest: 64,
    };
    assert_eq!(
        (counts.ttl, counts.dscp, counts.ecn),
        (Some(ttl), Some(46), None)
    );
    assert_eq!(counts.icmp, Some(Icmp { kind: 3, code: 1 }));
    assert_eq!((counts.captured_octets, counts.truncated), (160, true));
    assert_eq!(counts.forward.packets, 1);
    assert_eq!(counts.reverse.frame_octets, 1500);
    assert_eq!((counts.reverse.flags.rst, counts.reverse.flags.ack), (1, 1));
    assert_eq!(counts.reverse.flags.syn, 0);
}

#[test]
fn p10_a_syn_at_the_start_was_observed() {
    for (time, state) in [(500, StartState::SynObserved), (501, StartState::MidStream)] {
        let mut record = HostRecord::begin(&facts(500, 60, "A"), 6, Resolution::Finer).unwrap();
        assert_eq!(record.counts().start_state, StartState::MidStream);
        record
            .count(Direction::Forward, &facts(time, 60, "S"))
            .unwrap();
        assert_eq!(record.counts().start_state, state);
    }
    let other = HostRecord::begin(&facts(0, 60, "S"), 17, Resolution::Finer).unwrap();
    assert_eq!(other.counts().start_state, StartState::NotApplicable);
}

#[test]
fn damaged_comes_before_packet_and_packet_before_spent() {
    let out_of_range = Facts {
        flags: Some(TcpFlags(0x200)),
        ..facts(0, 60, "")
    };
    let refused = HostRecord::begin(&out_of_range, 6, Resolution::Finer).err();
    assert_eq!(refused, Some(Refusal::Packet));

    let mut counts = Random(20).counts();
    counts.captured_octets = u64::MAX;
    assert_eq!(refusal(counts, &out_of_range), Some(Refusal::Packet));
    assert_eq!(refusal(counts, &facts(0, 60, "")), Some(Refusal::Spent));
    assert_eq!(refusal(counts, &facts(0, 0, "")), None);
    (counts.start, counts.end) = (Nanos(1), Nanos(0));
    assert_eq!(refusal(counts, &out_of_range), Some(Refusal::Damaged));
}

/// What counting the packet is refused with. Refused, the record stays as it was.
fn refusal(counts: braidpuddle::Counts, packet: &Facts) -> Option<Refusal> {
    let before = HostRecord::from(counts);
    let mut record = before;
    let refusal = record.count(Direction::Reverse, packet).err();
    assert_eq!(refusal.is_none(), record != before);
    refusal
}

#[test]
fn an_engine_writes_the_same_record() {
    let key = common::conversation(0);
    let mut engine = common::engine(1, 0);
    let mut record = None;
    for time in 0..50 {
        let forward = time % 3 != 1;
        let packet = common::packet(time, if forward { key } else { key.reversed() }, "A");
        common::feed_all(&mut engine, &[packet]);
        match &mut record {
            None => {
                record = HostRecord::begin(&packet.facts, 6, Resolution::Microseconds).ok();
            }
            Some(record) => {
                let direction = [Direction::Reverse, Direction::Forward][usize::from(forward)];
                record.count(direction, &packet.facts).unwrap();
            }
        }
    }
    let expected = record
        .unwrap()
        .close(key, braidpuddle::EndReason::CaptureEnd);
    let mut out = vec![0; engine.room_for_one()];
    let drained = engine.drain(&mut out).unwrap();
    assert_eq!(drained.finished().next(), Some(Ok(expected)));
}
