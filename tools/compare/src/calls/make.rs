//! Cases at random.

use crate::engine::Opening;
use crate::random::Random;
use crate::scripts::times::any_timeout;
use crate::words::WORDS;

use super::batches::Packets;
use super::damage::{Change, Value};
use super::make_forms::{any_form, any_value};
use super::{Call, Case, Room};

/// One call in so many is tried with every size of output.
const FEW_EVERY_SIZE: usize = 150;

/// One case in so many has the greatest capacity.
const FEW_HAVE_MOST: usize = 20_000;

/// No more memory is lent.
const MOST_MEMORY: u64 = 256 + 640 * 4096 + 1000;

/// Words that packets add to: captured octets, packets and octets of either direction.
pub const SUMS: [usize; 5] = [9, 11, 12, 24, 25];

pub fn case(seed: u64) -> Case {
    let mut random = Random::new(seed);
    let opening = any_opening(&mut random);
    let mut packets = Packets::any(&mut random, opening.timeout);
    let most = random.one_of(&[5, 15, 30]);
    let count = 1 + random.below(most);
    let mut calls = Vec::new();
    while calls.len() < count {
        match random.below(20) {
            0 => calls.push(any_reopening(&mut random)),
            1 => spent(&mut random, &mut packets, &mut calls),
            2..=3 => damaged(&mut random, &mut packets, &mut calls),
            4..=7 => calls.push(Call::Form(any_form(&mut random))),
            _ => calls.push(any_call(&mut random, &mut packets)),
        }
    }
    Case { opening, calls }
}

fn needed(capacity: u64) -> u64 {
    capacity.saturating_mul(640).saturating_add(256)
}

/// One that is not refused. Few flows, so that the table is full at times.
fn any_opening(random: &mut Random) -> Opening {
    let capacity = if random.below(FEW_HAVE_MOST) == 0 {
        4096
    } else if random.below(500) == 0 {
        50 + random.below(200) as u64
    } else {
        random.one_of(&[1, 1, 2, 2, 3, 3, 4, 5, 5, 12])
    };
    let more = random.below(700) as u64;
    Opening {
        memory: needed(capacity) + random.one_of(&[0, 0, 1, 8, more]),
        capacity,
        timeout: any_timeout(random),
        resolution: random.one_of(&[0, 0, 1, 1, 2, u64::MAX]),
    }
}

/// An opening that may be refused.
fn any_reopening(random: &mut Random) -> Call {
    let few = 1 + random.below(8) as u64;
    let any = random.u64();
    let wrong = random.one_of(&[0, 4097, 4098, 1 << 32, (1 << 58) + 1, u64::MAX, any]);
    let capacity = random.one_of(&[few, few, few, wrong]);
    let enough = needed(capacity).min(MOST_MEMORY);
    let memory = random.one_of(&[0, 1, 255, 256, enough - 1, enough - 1, enough, enough + 9]);
    let opening = Opening {
        memory,
        capacity,
        timeout: any_timeout(random),
        resolution: random.one_of(&[0, 1]),
    };
    match random.below(3) {
        0 => Call::OpenOther(opening),
        _ => Call::OpenAgain(opening),
    }
}

fn any_call(random: &mut Random, packets: &mut Packets) -> Call {
    let room = any_room(random);
    match random.below(12) {
        0 => Call::Drain { room },
        1..=2 => Call::Sweep {
            time: packets.times.next(random),
            room,
        },
        _ => Call::Feed {
            batch: packets.any_batch(random),
            room,
        },
    }
}

fn any_room(random: &mut Random) -> Room {
    if random.below(FEW_EVERY_SIZE) == 0 {
        return Room::EverySize;
    }
    let some = random.below(800);
    random.one_of(&[
        Room::More(0),
        Room::More(1),
        Room::More(some),
        Room::More(some),
        Room::Less(1),
        Room::Less(some),
        Room::Less(usize::MAX),
    ])
}

/// A batch, sums near the top in one of the flows, and the same batch again.
fn spent(random: &mut Random, packets: &mut Packets, calls: &mut Vec<Call>) {
    let batch = packets.whole(random);
    let feed = |room| Call::Feed {
        batch: batch.clone(),
        room,
    };
    calls.push(feed(Room::More(0)));
    calls.push(Call::Damage(vec![Change::Record {
        turn: random.below(1 << 16),
        word: random.one_of(&SUMS),
        value: nearly_spent(random),
    }]));
    calls.push(feed(any_room(random)));
    calls.push(Call::Mend);
}

/// Damage, some calls on the damaged state, and mostly its mending.
fn damaged(random: &mut Random, packets: &mut Packets, calls: &mut Vec<Call>) {
    let count = random.one_of(&[1, 1, 1, 2, 3]);
    calls.push(Call::Damage(
        (0..count).map(|_| any_change(random)).collect(),
    ));
    for _ in 0..1 + random.below(3) {
        calls.push(any_call(random, packets));
    }
    if random.below(6) > 0 {
        calls.push(Call::Mend);
    }
}

fn any_change(random: &mut Random) -> Change {
    let turn = random.below(1 << 16);
    match random.below(16) {
        0 => Change::Byte {
            place: random.below(1 << 24),
            flip: any_flip(random),
        },
        1..=2 => Change::Header {
            word: random.below(6),
            value: any_header_value(random),
        },
        3..=4 => Change::Front {
            turn,
            place: random.below(75),
            flip: any_flip(random),
        },
        5..=8 => Change::Record {
            turn,
            word: random.below(WORDS),
            value: any_value(random),
        },
        9..=11 => Change::Record {
            turn,
            word: random.one_of(&SUMS),
            value: nearly_spent(random),
        },
        12 => Change::Node {
            turn,
            value: any_value(random),
        },
        13 => Change::Due {
            turn,
            from_latest: random.one_of(&[-1_000_000_000, -1, 0, 1, 2, i64::MAX, i64::MIN]),
        },
        14 => Change::Twin {
            turn,
            reversed: random.one_of(&[false, true]),
        },
        _ if random.below(2) == 0 => Change::NotDue { turn },
        _ => {
            let any = random.below(4000);
            Change::Shorter(random.one_of(&[1, 9, 640, any]))
        }
    }
}

fn any_flip(random: &mut Random) -> u8 {
    let any = random.u8() | 1;
    random.one_of(&[1, 2, 4, 0x80, any])
}

/// Whole milliseconds, too, so that T may be one that opening gives.
fn any_header_value(random: &mut Random) -> Value {
    let milliseconds = 1_000_000 * (random.u64() >> 44);
    let any = any_value(random);
    random.one_of(&[any, any, Value::Set(milliseconds), Value::Add(1_000_000)])
}

/// The top, or a little below it.
pub fn nearly_spent(random: &mut Random) -> Value {
    let below = random.u64() >> random.one_of(&[64 - 34, 64 - 16, 64 - 4]);
    Value::Set(u64::MAX - below)
}

#[cfg(test)]
mod tests {
    use super::*;
    use crate::model::open;

    fn cases() -> Vec<Case> {
        (0..500).map(case).collect()
    }

    #[test]
    fn first_openings_are_not_refused() {
        for Case { opening, .. } in cases() {
            let opened = open(opening.memory, opening.capacity, opening.timeout, 0);
            assert!(opened.is_ok());
        }
    }

    #[test]
    fn calls_of_every_kind() {
        let cases = cases();
        let some = |test: &dyn Fn(&Call) -> bool| {
            let calls = cases.iter().flat_map(|case| &case.calls);
            let count = calls.filter(|call| test(call)).count();
            assert!(count > 5, "{count}");
        };
        some(&|call| matches!(call, Call::Feed { batch, .. } if batch.is_empty()));
        some(&|call| matches!(call, Call::Feed { batch, .. } if batch.len() > 206));
        some(&|call| matches!(call, Call::Sweep { .. }));
        some(&|call| matches!(call, Call::Drain { .. }));
        some(&|call| matches!(call, Call::OpenAgain(_)));
        some(&|call| matches!(call, Call::OpenOther(_)));
        some(&|call| matches!(call, Call::Form(_)));
        some(&|call| matches!(call, Call::Damage(_)));
        some(&|call| matches!(call, Call::Mend));
        some(&|call| {
            let sized = Room::EverySize;
            matches!(call, Call::Feed { room, .. } if *room == sized)
        });
    }
}
