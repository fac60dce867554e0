//! Changes of a state by hand.
//!
//! Which slots are used is not known when a case is made, so a change says which one by turn.

use crate::layout::{
    self, HEADER_BYTES, NEVER, RECORD_AT, SLOT_USED, capacity_of, node_at, slot_at,
};
use crate::model::{read_key, write_key};

#[derive(Debug, Clone, PartialEq, Eq)]
pub enum Change {
    /// Any byte of the memory.
    Byte { place: usize, flip: u8 },
    /// A word of the header.
    Header { word: usize, value: Value },
    /// One of the first bytes of a used slot: mark, key's length, key.
    Front { turn: usize, place: usize, flip: u8 },
    /// A word of a used slot's record.
    Record {
        turn: usize,
        word: usize,
        value: Value,
    },
    /// Any node of the queue's tree.
    Node { turn: usize, value: Value },
    /// A used slot's due time, so many nanoseconds from its end + T, with the nodes above it as they
    /// are to be.
    Due { turn: usize, from_latest: i64 },
    /// A used slot's due time, without a due time at all.
    NotDue { turn: usize },
    /// A used slot once more in a free one, under the same key or under its reverse.
    Twin { turn: usize, reversed: bool },
    /// So many bytes fewer are lent.
    Shorter(usize),
}

/// What becomes of a word.
#[derive(Debug, Clone, Copy, PartialEq, Eq)]
pub enum Value {
    Set(u64),
    Flip(u64),
    /// Past the ends of the range it goes on at the other.
    Add(u64),
}

impl Value {
    pub fn of(self, word: u64) -> u64 {
        match self {
            Value::Set(value) => value,
            Value::Flip(bits) => word ^ bits,
            Value::Add(more) => word.wrapping_add(more),
        }
    }
}

/// Changes the memory. Where there is no slot of the kind, nothing changes.
pub fn apply(memory: &mut Vec<u8>, change: &Change) {
    match *change {
        Change::Byte { place, flip } if !memory.is_empty() => {
            let place = place % memory.len();
            memory[place] ^= flip;
        }
        Change::Byte { .. } => (),
        Change::Header { word, value } if memory.len() >= HEADER_BYTES => {
            put_value(memory, 8 * word, value)
        }
        Change::Header { .. } => (),
        Change::Shorter(bytes) => memory.truncate(memory.len().saturating_sub(bytes)),
        _ => apply_to_slots(memory, change),
    }
}

fn put_value(memory: &mut [u8], place: usize, value: Value) {
    let word = layout::word_at(memory, place);
    layout::put_word(memory, place, value.of(word));
}

fn apply_to_slots(memory: &mut [u8], change: &Change) {
    let Some(capacity) = capacity_of(memory) else {
        return;
    };
    if let Change::Node { turn, value } = *change {
        return put_value(memory, node_at(capacity, turn % (2 * capacity)), value);
    }
    let used = layout::slots(memory, true);
    let slot = |turn: usize| used[turn % used.len()];
    if used.is_empty() {
        return;
    }
    match *change {
        Change::Front { turn, place, flip } => memory[slot_at(slot(turn)) + place] ^= flip,
        Change::Record { turn, word, value } => {
            put_value(memory, slot_at(slot(turn)) + RECORD_AT + 8 * word, value)
        }
        Change::Due { turn, from_latest } => {
            let due = latest(memory, slot(turn)).saturating_add_signed(from_latest);
            layout::put_due(memory, capacity, slot(turn), due);
        }
        Change::NotDue { turn } => layout::put_due(memory, capacity, slot(turn), NEVER),
        Change::Twin { turn, reversed } => twin(memory, capacity, slot(turn), reversed),
        _ => (),
    }
}

/// A slot's end + T, held at the top.
fn latest(memory: &[u8], slot: usize) -> u64 {
    layout::end_of(memory, slot).saturating_add(layout::word_at(memory, 16))
}

/// Copies a slot into the first free one, with its due time.
fn twin(memory: &mut [u8], capacity: usize, slot: usize, reversed: bool) {
    let Some(free) = layout::slots(memory, false).first().copied() else {
        return;
    };
    let mut bytes = memory[slot_at(slot)..slot_at(slot) + SLOT_USED].to_vec();
    let length = usize::from(bytes[1]);
    if let (true, Some(key)) = (reversed, read_key(&bytes[2..2 + length])) {
        // The same fields in another order have the same length.
        bytes[2..2 + length].copy_from_slice(&write_key(&key.reversed()));
    }
    memory[slot_at(free)..slot_at(free) + SLOT_USED].copy_from_slice(&bytes);
    let due = layout::word_at(memory, node_at(capacity, capacity + slot));
    layout::put_due(memory, capacity, free, due);
}

#[cfg(test)]
mod tests {
    use super::*;
    use crate::layout::{meaning, one_flow};

    fn still_sound(change: Change) -> bool {
        let mut memory = one_flow(1_000_000);
        apply(&mut memory, &change);
        meaning(&memory).is_some()
    }

    #[test]
    fn changes_do_what_they_say() {
        let due = |from_latest| Change::Due {
            turn: 3,
            from_latest,
        };
        assert!(still_sound(due(0)) && still_sound(due(-1)) && !still_sound(due(1)));
        assert!(!still_sound(Change::NotDue { turn: 3 }));
        assert!(still_sound(Change::Shorter(3)) && !still_sound(Change::Shorter(4)));
        for reversed in [false, true] {
            assert!(!still_sound(Change::Twin { turn: 3, reversed }));
        }
        let header = |word, value| Change::Header { word, value };
        assert!(!still_sound(header(1, Value::Add(1))));
        assert!(!still_sound(header(1, Value::Set(u64::MAX))));
        assert!(still_sound(header(5, Value::Flip(1 << 63))));
    }

    #[test]
    fn changes_that_find_nothing_change_nothing() {
        for length in [0, 100, 256] {
            for change in [
                Change::NotDue { turn: 3 },
                Change::Twin {
                    turn: 3,
                    reversed: true,
                },
                Change::Node {
                    turn: 3,
                    value: Value::Add(1),
                },
            ] {
                let mut memory = vec![0; length];
                apply(&mut memory, &change);
                assert_eq!(memory, vec![0; length]);
            }
        }
    }
}
