//! The library's state memory, read as crate `table` documents it. Nothing here is the library's code.
//!
//! A header of 256 bytes has words of 8 bytes: the layout's number, the capacity, T, L, the resolution,
//! the clock. Then come slots of 624 bytes: byte 0 is 1 where the slot is used, byte 1 is the key's
//! length, the key's form follows, and from 80 on the record's 37 words. Then the queue's tree, 16
//! bytes a slot: node 1 is the root, node k has the children 2k and 2k + 1, and slot i's due time is
//! node capacity + i, 2^64 − 1 for none.

use crate::model::{Flow, State, read_key, sound_state, write_key};
use crate::words::{self, WORDS, Words};

pub const HEADER_BYTES: usize = 256;
pub const HEADER_WORDS: usize = 6;
pub const SLOT_BYTES: usize = 624;
pub const SLOT_USED: usize = 376;
pub const RECORD_AT: usize = 80;
pub const NEVER: u64 = u64::MAX;

const LAYOUT: u64 = 1;
const WORD_BYTES: usize = 8;
const CAPACITY_AT: usize = 8;

/// The end is a record's second word.
const END_AT: usize = RECORD_AT + WORD_BYTES;

pub fn word_at(state: &[u8], place: usize) -> u64 {
    let bytes = state[place..place + WORD_BYTES].try_into();
    u64::from_le_bytes(bytes.expect("a word has eight bytes"))
}

pub fn put_word(state: &mut [u8], place: usize, word: u64) {
    state[place..place + WORD_BYTES].copy_from_slice(&word.to_le_bytes());
}

/// The stored capacity, if there is a header and the memory is long enough for it.
pub fn capacity_of(state: &[u8]) -> Option<usize> {
    if state.len() < HEADER_BYTES {
        return None;
    }
    let capacity = word_at(state, CAPACITY_AT);
    let fits = (1..=4096).contains(&capacity) && state.len() as u64 >= 256 + 640 * capacity;
    fits.then_some(capacity as usize)
}

pub fn slot_at(slot: usize) -> usize {
    HEADER_BYTES + SLOT_BYTES * slot
}

pub fn node_at(capacity: usize, node: usize) -> usize {
    slot_at(capacity) + WORD_BYTES * node
}

pub fn is_used(state: &[u8], slot: usize) -> bool {
    state[slot_at(slot)] == 1
}

/// The slots of either kind, none where the header is damaged.
pub fn slots(state: &[u8], used: bool) -> Vec<usize> {
    let all = 0..capacity_of(state).unwrap_or(0);
    all.filter(|slot| is_used(state, *slot) == used).collect()
}

pub fn end_of(state: &[u8], slot: usize) -> u64 {
    word_at(state, slot_at(slot) + END_AT)
}

/// Slot i's due time, and every node above it.
pub fn put_due(state: &mut [u8], capacity: usize, slot: usize, due: u64) {
    let mut node = capacity + slot;
    put_word(state, node_at(capacity, node), due);
    while node > 1 {
        node /= 2;
        let least = least_child(state, capacity, node);
        put_word(state, node_at(capacity, node), least);
    }
}

fn least_child(state: &[u8], capacity: usize, node: usize) -> u64 {
    let child = |place| word_at(state, node_at(capacity, place));
    child(2 * node).min(child(2 * node + 1))
}

/// What the memory means, or nothing where it is no sound state.
pub fn meaning(memory: &[u8]) -> Option<State> {
    let capacity = capacity_of(memory)?;
    let [layout, _, timeout, lateness, resolution, clock] =
        std::array::from_fn(|word| word_at(memory, WORD_BYTES * word));
    let used = slots(memory, true);
    let flows: Option<Vec<Flow>> = used.iter().map(|slot| flow(memory, *slot)).collect();
    let state = State {
        capacity: capacity as u64,
        memory: memory.len() as u64,
        timeout,
        lateness,
        resolution,
        clock,
        flows: flows?,
    };
    let queue_is_sound = entries_are_sound(memory, capacity, timeout) && is_tree(memory, capacity);
    (layout == LAYOUT && queue_is_sound && sound_state(&state)).then_some(state)
}

/// Nothing where its key is no key form.
fn flow(memory: &[u8], slot: usize) -> Option<Flow> {
    let bytes = &memory[slot_at(slot)..slot_at(slot) + SLOT_BYTES];
    let key = read_key(&bytes[2..2 + usize::from(bytes[1])])?;
    let words: Words = std::array::from_fn(|word| word_at(bytes, RECORD_AT + WORD_BYTES * word));
    assert_eq!(RECORD_AT + WORD_BYTES * WORDS, SLOT_USED);
    let record = words::to_model(&words, None, key);
    Some(Flow {
        forward_fin: record.forward.flags[0] > 0,
        reverse_fin: record.reverse.flags[0] > 0,
        record,
    })
}

/// "the expiry queue empty if timeout is 0, else naming each open flow once and nothing else, never
/// later than its end + T"
fn entries_are_sound(memory: &[u8], capacity: usize, timeout: u64) -> bool {
    (0..capacity).all(|slot| {
        let due = word_at(memory, node_at(capacity, capacity + slot));
        if timeout > 0 && is_used(memory, slot) {
            let latest = u128::from(end_of(memory, slot)) + u128::from(timeout);
            due != NEVER && u128::from(due) <= latest
        } else {
            due == NEVER
        }
    })
}

fn is_tree(memory: &[u8], capacity: usize) -> bool {
    (1..capacity)
        .all(|node| word_at(memory, node_at(capacity, node)) == least_child(memory, capacity, node))
}

/// The bytes that no call but opening has a use for: those of the header and of each slot behind the
/// last word, the tree's node 0, and what lies beyond the state.
pub fn spare(memory: &[u8]) -> Vec<u8> {
    let Some(capacity) = capacity_of(memory) else {
        return memory.to_vec();
    };
    let mut bytes = memory[WORD_BYTES * HEADER_WORDS..HEADER_BYTES].to_vec();
    for slot in 0..capacity {
        bytes.extend(&memory[slot_at(slot) + SLOT_USED..slot_at(slot + 1)]);
    }
    bytes.extend(&memory[node_at(capacity, 0)..node_at(capacity, 1)]);
    bytes.extend(&memory[node_at(capacity, 2 * capacity)..]);
    bytes
}

/// Whether two states mean the same: where a flow sits does not matter.
pub fn same(first: &State, other: &State) -> bool {
    let in_order = |state: &State| {
        let mut state = state.clone();
        state
            .flows
            .sort_by_cached_key(|flow| write_key(&flow.record.key));
        state
    };
    in_order(first) == in_order(other)
}

/// Memory of capacity 2 with one flow in slot 1 and three bytes beyond, written here by hand.
#[cfg(test)]
pub fn one_flow(timeout: u64) -> Vec<u8> {
    let mut memory = vec![0; 256 + 640 * 2 + 3];
    for (word, value) in [LAYOUT, 2, timeout, timeout / 2, 1, 0].iter().enumerate() {
        put_word(&mut memory, 8 * word, *value);
    }
    memory[node_at(2, 0)..node_at(2, 4)].fill(0xFF);
    let fold = crate::answers::folds::any_fold(&mut crate::random::Random::new(1));
    let key = crate::forms::key(&fold.key());
    let at = slot_at(1);
    memory[at] = 1;
    memory[at + 1] = key.len() as u8;
    memory[at + 2..at + 2 + key.len()].copy_from_slice(&key);
    for (word, value) in words::of_rust(&fold.record()).iter().enumerate() {
        put_word(&mut memory, at + RECORD_AT + 8 * word, *value);
    }
    if timeout > 0 {
        let end = end_of(&memory, 1);
        put_due(&mut memory, 2, 1, end);
    }
    memory
}

#[cfg(test)]
mod tests {
    use super::*;

    #[test]
    fn a_state_written_by_hand_is_read() {
        for timeout in [0, 1_000_000] {
            let memory = one_flow(timeout);
            let state = meaning(&memory).expect("it is sound");
            assert_eq!((state.capacity, state.timeout), (2, timeout));
            assert_eq!(state.flows.len(), 1);
            let key = write_key(&state.flows[0].record.key);
            assert_eq!(key, memory[slot_at(1) + 2..][..key.len()]);
        }
    }

    #[test]
    fn damage_is_seen() {
        let damaged = |change: &dyn Fn(&mut Vec<u8>)| {
            let mut memory = one_flow(1_000_000);
            change(&mut memory);
            meaning(&memory).is_none()
        };
        assert!(!damaged(&|_| ()));
        assert!(!damaged(&|memory| memory[100] = 7));
        assert!(!damaged(&|memory| memory.truncate(256 + 640 * 2)));
        assert!(damaged(&|memory| memory.truncate(256 + 640 * 2 - 1)));
        assert!(damaged(&|memory| memory[0] = 2));
        assert!(damaged(&|memory| memory[slot_at(1)] = 0));
        assert!(damaged(&|memory| memory[slot_at(0)] = 1));
        assert!(damaged(&|memory| memory[slot_at(1) + 1] += 1));
        assert!(damaged(&|memory| put_word(memory, node_at(2, 1), 0)));
        let due = end_of(&one_flow(1_000_000), 1) + 1_000_000;
        assert!(!damaged(&|memory| put_due(memory, 2, 1, due)));
        assert!(damaged(&|memory| put_due(memory, 2, 1, due + 1)));
        assert!(damaged(&|memory| put_due(memory, 2, 1, NEVER)));
    }

    #[test]
    fn spare_bytes_mean_nothing() {
        let memory = one_flow(1_000_000);
        let state = meaning(&memory).expect("it is sound");
        let before = spare(&memory);
        // Behind the header's words, which say what is spare.
        for place in WORD_BYTES * HEADER_WORDS..memory.len() {
            let mut changed = memory.clone();
            changed[place] ^= 0x10;
            if spare(&changed) != before {
                let meaning = meaning(&changed).expect("it is still sound");
                assert!(same(&meaning, &state));
            }
        }
    }
}
