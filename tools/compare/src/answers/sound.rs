//! Records at the edges of "sound record" of document 01, and one step past each edge.
//!
//! No fold makes these: they are a folded record's form with other numbers in some fields.

use crate::answers::folds::{self, Fold};
use crate::answers::wrong::{Refused, WrongNumber, with_a_wrong_number, with_numbers};
use crate::answers::{keys, lines};
use crate::flow::{Direction, EndReason, PacketFacts, TimeResolution, Timestamp};
use crate::forms::{Field, SHORT, join};
use crate::records::{FORWARD, Names, Packet, RECORD, REVERSE, flags, record_fields};

const TOP: u128 = u64::MAX as u128;

/// Numbers in place of those of some fields.
type Change = Vec<(&'static str, u128)>;

/// `r` lines: sound records.
pub fn sound() -> Vec<String> {
    let mut list = vec![join(&both_ways()), join(&one_way())];
    list.extend(changed(&both_ways(), &sound_both_ways()));
    list.extend(changed(&one_way(), &sound_one_way()));
    list.push(join(&longest(TOP >> 1)));
    list.iter().map(|form| lines::sound_record(form)).collect()
}

/// `x` lines: records that are not sound, and bytes that are no record.
pub fn refused() -> Vec<String> {
    let mut unsound = changed(&both_ways(), &unsound_both_ways());
    unsound.extend(changed(&one_way(), &unsound_one_way()));
    unsound.push(join(&longest(TOP)));

    let mut list: Vec<Refused> = vec![(vec![], RECORD)];
    list.extend(unsound.iter().flat_map(|form| refused_when_whole(form)));
    for wrong in wrong_numbers() {
        list.extend(with_a_wrong_number(&both_ways(), &wrong, RECORD));
    }
    list.iter()
        .map(|(bytes, answer)| lines::refused_record(bytes, *answer))
        .collect()
}

fn changed(fields: &[Field], changes: &[Change]) -> Vec<Vec<u8>> {
    changes
        .iter()
        .map(|change| join(&with_numbers(fields, change)))
        .collect()
}

/// Whether a record is sound does not count before all of it is there: cut by a byte it is Short.
fn refused_when_whole(form: &[u8]) -> [Refused; 2] {
    let cut = &form[..form.len() - 1];
    [(form.to_vec(), RECORD), (cut.to_vec(), SHORT)]
}

/// Times 500 to 700; forward two packets, of 60 and 100 octets; reverse one of 54; TTL 60 to 64.
fn both_ways() -> Vec<Field> {
    fields_of(vec![
        (Direction::Forward, packet(500, 60, Some(64))),
        (Direction::Reverse, packet(600, 54, Some(60))),
        (Direction::Forward, packet(700, 100, None)),
    ])
}

/// One packet forward, of 60 octets, with no TTL.
fn one_way() -> Vec<Field> {
    fields_of(vec![(Direction::Forward, packet(500, 60, None))])
}

fn fields_of(packets: Vec<(Direction, Packet)>) -> Vec<Field> {
    let fold = Fold {
        resolution: TimeResolution::Nanoseconds,
        packets,
        reason: EndReason::Fin,
    };
    record_fields(&fold.key(), &fold.record())
}

fn packet(time: u64, frame_octets: u32, ttl: Option<u8>) -> Packet {
    Packet {
        facts: PacketFacts {
            time: Timestamp::from_nanos(time),
            frame_octets,
            captured_octets: frame_octets,
            ttl,
            tcp_flags: Some(flags(0)),
            icmp: None,
        },
        ..folds::plainest()
    }
}

/// Optional fields hold their value plus 1.
fn sound_both_ways() -> Vec<Change> {
    let mut list = vec![
        vec![("start", 700)],
        vec![("start", 0), ("end", TOP)],
        vec![("forward minimum", 101)],
        vec![("forward minimum", 1), ("forward maximum", 1 << 32)],
        vec![("reverse minimum", 1), ("reverse octets", 0)],
        vec![("ttl minimum", 65)],
        vec![("ttl minimum", 1), ("ttl maximum", 256)],
        vec![("ttl minimum", 0), ("ttl maximum", 0)],
        vec![("forward packets", TOP - 1)],
        vec![("reverse packets", TOP - 2)],
        vec![("forward octets", TOP - 54)],
        vec![("reverse octets", TOP - 160)],
        vec![("captured octets", TOP), ("truncated", 1)],
        vec![("end reason", 3), ("start state", 0), ("resolution", 0)],
        vec![("dscp", 256), ("ecn", 1), ("icmp", 1 << 16)],
    ];
    list.extend(FORWARD.flags.map(|flag| vec![(flag, 2)]));
    list.extend(REVERSE.flags.map(|flag| vec![(flag, 1)]));
    list
}

/// One step past the edges: each has one thing wrong.
fn unsound_both_ways() -> Vec<Change> {
    let mut list = vec![
        vec![("start", 701)],
        vec![("end", 499)],
        vec![("start", TOP)],
        vec![("forward minimum", 102)],
        vec![("reverse minimum", 56)],
        vec![("forward minimum", 0)],
        vec![("forward maximum", 0)],
        vec![("reverse minimum", 0)],
        vec![("reverse maximum", 0)],
        vec![("forward minimum", 0), ("forward maximum", 0)],
        vec![("reverse minimum", 0), ("reverse maximum", 0)],
        vec![("ttl minimum", 66)],
        vec![("ttl minimum", 0)],
        vec![("ttl maximum", 0)],
        vec![("forward packets", TOP)],
        vec![("reverse packets", TOP - 1)],
        vec![("forward octets", TOP - 53)],
        vec![("reverse octets", TOP - 159)],
        vec![("forward octets", TOP), ("reverse octets", TOP)],
    ];
    list.extend(FORWARD.flags.map(|flag| vec![(flag, 3)]));
    list.extend(REVERSE.flags.map(|flag| vec![(flag, 2)]));
    list
}

fn sound_one_way() -> Vec<Change> {
    let turned = [packets(&FORWARD, 0), packets(&REVERSE, 1)].concat();
    vec![
        turned,
        vec![("forward packets", TOP), ("forward octets", TOP)],
        vec![("forward octets", 0)],
    ]
}

fn unsound_one_way() -> Vec<Change> {
    let mut list = vec![
        packets(&FORWARD, 0),
        vec![("forward packets", 0)],
        vec![("reverse packets", 1)],
        vec![("reverse octets", 1)],
        vec![("reverse minimum", 61), ("reverse maximum", 61)],
        vec![("reverse minimum", 1), ("reverse maximum", 1)],
        vec![("reverse minimum", 61)],
        vec![("ttl minimum", 1)],
        vec![("ttl maximum", 1)],
    ];
    list.extend(REVERSE.flags.map(|flag| vec![(flag, 1)]));
    list
}

/// So many packets of 60 octets in a direction, without flags.
fn packets(names: &Names, count: u128) -> Change {
    let bound = if count == 0 { 0 } else { 61 };
    vec![
        (names.packets, count),
        (names.octets, 60 * count),
        (names.minimum, bound),
        (names.maximum, bound),
    ]
}

/// Every field as long as it can be, with this number in each of the reverse counts. A kind of
/// tunnel of two bytes is no kind of the Rust's, and document 01 has it all the same.
fn longest(reverse: u128) -> Vec<Field> {
    let fold = Fold {
        packets: vec![(Direction::Forward, folds::longest())],
        resolution: TimeResolution::Nanoseconds,
        reason: EndReason::CaptureEnd,
    };
    let mut change: Change = vec![
        ("captured octets", TOP),
        ("truncated", 1),
        ("kind", 256),
        ("reverse minimum", 1 << 32),
        ("reverse maximum", 1 << 32),
    ];
    for (names, count) in [(&FORWARD, TOP - (TOP >> 1)), (&REVERSE, reverse)] {
        change.extend([(names.packets, count), (names.octets, count)]);
        change.extend(names.flags.map(|flag| (flag, count)));
    }
    assert_eq!(fold.key(), keys::longest());
    with_numbers(&record_fields(&fold.key(), &fold.record()), &change)
}

/// Numbers that their fields do not take.
fn wrong_numbers() -> Vec<WrongNumber> {
    let mut list = vec![
        ("schema", 1, 0),
        ("schema", 1, 2),
        ("schema", 1, 129),
        ("end reason", 3, 4),
        ("start state", 2, 3),
        ("resolution", 1, 2),
        ("truncated", 1, 2),
        ("protocol", 255, 256),
    ];
    let above = |field, most: u64| (field, most, u128::from(most) + 1);
    list.extend(["start", "end", "captured octets"].map(|field| above(field, u64::MAX)));
    list.extend(["ttl minimum", "ttl maximum", "dscp", "ecn"].map(|field| above(field, 1 << 8)));
    list.push(above("icmp", 1 << 16));
    for names in [FORWARD, REVERSE] {
        list.extend([names.packets, names.octets].map(|field| above(field, u64::MAX)));
        list.extend([names.minimum, names.maximum].map(|field| above(field, 1 << 32)));
        list.extend([names.flags[0], names.flags[8]].map(|field| above(field, u64::MAX)));
    }
    list.into_iter()
        .map(|(field, most, value)| WrongNumber { field, most, value })
        .collect()
}

#[cfg(test)]
mod tests {
    use super::*;

    /// Document 01 allows 358 bytes, each field by itself. Counts of both directions together stay
    /// below 2^64, so that one direction's have at most nine bytes.
    #[test]
    fn lengths_of_records() {
        assert_eq!(join(&longest(TOP)).len(), 358);
        assert_eq!(join(&longest(TOP >> 1)).len(), 347);
    }
}
