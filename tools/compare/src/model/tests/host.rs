//! A host's own record, beside the Rust's.

use super::refusals::{full_of, packets_out_of_range};
use crate::answers::folds::{self, Fold};
use crate::flow::{self, EndReason, TimeResolution};
use crate::model::examples::packet;
use crate::model::*;
use crate::random::Random;
use crate::records;

/// What the Rust makes of these packets, made by the model.
fn folded(fold: &Fold) -> Record {
    let resolution = match fold.resolution {
        TimeResolution::Microseconds => 0,
        TimeResolution::Nanoseconds => 1,
    };
    let mut record: Option<Record> = None;
    for (direction, packet) in &fold.packets {
        let (packet, _) = read_packet(&records::packet(packet)).expect("it is a packet");
        let way = match direction {
            flow::Direction::Forward => Way::Forward,
            flow::Direction::Reverse => Way::Reverse,
        };
        match &mut record {
            None => record = Some(begin(&packet, resolution).expect("it is in range")),
            Some(record) => observe(record, way, &packet).expect("it is counted"),
        }
    }
    let mut record = record.expect("there is a packet");
    record.end_reason = Some(match fold.reason {
        EndReason::IdleTimeout => 0,
        EndReason::Fin => 1,
        EndReason::Rst => 2,
        _ => 3,
    });
    record
}

#[test]
fn packets_are_counted_as_the_rust_counts_them() {
    for seed in 0..50 {
        for fold in folds::chosen(&mut Random::new(seed)) {
            let mut output = [0; 358];
            let length = write_record(&folded(&fold), &mut output).expect("it is sound");
            assert_eq!(
                output[..length],
                records::record(&fold.key(), &fold.record())
            );
        }
    }
}

#[test]
fn a_record_begins_with_its_first_packet() {
    let record = begin(&packet(Way::Forward, 7, 1), 5).expect("it is in range");
    assert_eq!((record.start, record.end, record.resolution), (7, 7, 1));
    assert_eq!((record.forward.packets, record.reverse.packets), (1, 0));
    assert_eq!(record.end_reason, None);
}

#[test]
fn refusals_leave_it_unchanged() {
    let good = packet(Way::Forward, 7, 1);
    let sound = begin(&good, 0).expect("it is in range");
    for wrong in packets_out_of_range() {
        assert_eq!(begin(&wrong, 0), Err(Refusal::Packet));
        let mut record = sound.clone();
        assert_eq!(
            observe(&mut record, Way::Forward, &wrong),
            Err(Refusal::Packet)
        );
        assert_eq!(record, sound);
        let mut damaged = Record {
            start: 8,
            ..sound.clone()
        };
        assert_eq!(
            observe(&mut damaged, Way::Forward, &wrong),
            Err(Refusal::Damaged)
        );
        let mut spent = full_of(&sound);
        assert_eq!(
            observe(&mut spent, Way::Reverse, &wrong),
            Err(Refusal::Packet)
        );
        assert_eq!(
            observe(&mut spent, Way::Reverse, &good),
            Err(Refusal::Spent)
        );
        assert_eq!(spent, full_of(&sound));
    }
}

#[test]
fn its_end_reason_is_set_aside() {
    let good = packet(Way::Forward, 7, 1);
    for end_reason in [None, Some(0), Some(3), Some(4), Some(u64::MAX)] {
        let mut record = begin(&good, 0).expect("it is in range");
        record.end_reason = end_reason;
        assert_eq!(observe(&mut record, Way::Forward, &good), Ok(()));
        assert_eq!(record.end_reason, end_reason);
        let written = write_record(&record, &mut [0; 358]);
        let in_range = end_reason.is_some_and(|reason| reason <= 3);
        assert_eq!(written.is_ok(), in_range);
        assert!(in_range || written == Err(Refusal::Damaged));
    }
}
