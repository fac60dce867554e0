//! Forms to read and write, at random.

use crate::answers::folds::{any_fold, any_packet};
use crate::answers::keys::any_key;
use crate::forms;
use crate::random::Random;
use crate::records;
use crate::words::{self, FORWARD, Facts, Words};

use super::batches::spoilt;
use super::damage::Value;
use super::forms::Form;

const BOUNDS: [u64; 10] = [
    0,
    1,
    3,
    127,
    128,
    255,
    65536,
    u32::MAX as u64,
    u64::MAX - 1,
    u64::MAX,
];

pub fn any_form(random: &mut Random) -> Form {
    match random.below(6) {
        0 => Form::ReadNumber {
            bytes: any_number_bytes(random),
            most: any_most(random),
        },
        1 => {
            let most = any_most(random);
            let near = random.one_of(&[most, most.wrapping_add(1), most / 2, 0]);
            let any = random.u64() >> random.below(64);
            Form::WriteNumber {
                value: random.one_of(&[any, near]),
                most,
            }
        }
        2 => Form::ReadPacket {
            bytes: any_packet_bytes(random),
        },
        3 => Form::WritePacket {
            facts: any_facts(random),
            key: any_key_bytes(random),
        },
        4 => Form::ReadRecord {
            bytes: any_record_bytes(random),
        },
        _ => {
            let (words, reason, key) = any_record(random);
            Form::WriteRecord {
                words: Box::new(words),
                reason,
                key,
            }
        }
    }
}

fn any_most(random: &mut Random) -> u64 {
    let any = random.u64() >> random.below(64);
    let bound = random.one_of(&BOUNDS);
    random.one_of(&[bound, bound, any])
}

/// A number's form with something behind it, or bytes most of which have their top bit set.
fn any_number_bytes(random: &mut Random) -> Vec<u8> {
    if random.below(2) == 0 {
        let value = random.u64() >> random.below(64);
        let form = forms::number(value.into());
        return now_and_then_spoilt(random, form);
    }
    let length = random.below(12);
    (0..length)
        .map(|_| {
            let edge = random.one_of(&[0, 1, 0x7F, 0x80, 0xFF]);
            let (any, more) = (random.u8(), random.u8() | 0x80);
            random.one_of(&[edge, any, more, more])
        })
        .collect()
}

fn now_and_then_spoilt(random: &mut Random, bytes: Vec<u8>) -> Vec<u8> {
    match random.below(2) {
        0 => spoilt(random, bytes),
        _ => bytes,
    }
}

fn any_packet_bytes(random: &mut Random) -> Vec<u8> {
    let (key, time) = (any_key(random), random.u64());
    let form = records::packet(&any_packet(random, key, time));
    now_and_then_spoilt(random, form)
}

/// A key's form, mostly.
pub fn any_key_bytes(random: &mut Random) -> Vec<u8> {
    let form = forms::key(&any_key(random));
    match random.below(5) {
        0 => spoilt(random, form),
        _ => form,
    }
}

/// A packet's numbers, half of the time with one changed.
pub fn any_facts(random: &mut Random) -> Facts {
    let (key, time) = (any_key(random), random.u64() >> random.below(64));
    let mut facts = words::facts_of_rust(&any_packet(random, key, time));
    if random.below(2) == 0 {
        let place = random.below(facts.len());
        facts[place] = any_value(random).of(facts[place]);
    }
    facts
}

/// What becomes of a word: an edge of some field, a little more or less, one bit, or anything.
pub fn any_value(random: &mut Random) -> Value {
    let edges = [
        0,
        1,
        2,
        3,
        256,
        257,
        512,
        513,
        65536,
        65537,
        1 << 32,
        (1 << 32) + 1,
        u64::MAX,
    ];
    let from_top = random.u64() >> (30 + random.below(34));
    match random.below(6) {
        0 => Value::Set(random.one_of(&edges)),
        1 => Value::Set(u64::MAX - from_top),
        2 => Value::Flip(1 << random.below(64)),
        3 => Value::Add(1),
        4 => Value::Add(u64::MAX),
        _ => Value::Set(random.u64() >> random.below(64)),
    }
}

/// A record's words, end reason and key; most have something changed.
fn any_record(random: &mut Random) -> (Words, u64, Vec<u8>) {
    let fold = any_fold(random);
    let mut words = words::of_rust(&fold.record());
    change_words(random, &mut words);
    let any = random.u64();
    let reason = random.one_of(&[0, 1, 2, 3, 0, 1, 2, 3, 4, any]);
    let form = forms::key(&fold.key());
    let key = match random.below(6) {
        0 => spoilt(random, form),
        _ => form,
    };
    (words, reason, key)
}

/// Changes none, one or two words, or makes one like another.
pub fn change_words(random: &mut Random, words: &mut Words) {
    for _ in 0..random.below(3) {
        let place = random.below(words.len());
        words[place] = any_value(random).of(words[place]);
    }
    if random.below(4) == 0 {
        let (from, to) = (random.below(words.len()), random.below(words.len()));
        words[to] = random.one_of(&[words[from], words[from].wrapping_add(1)]);
    }
}

/// Words in the order of the record form, sound or not.
fn any_record_bytes(random: &mut Random) -> Vec<u8> {
    let (words, reason, key) = any_record(random);
    let mut numbers = vec![1, reason, words[2], words[3], words[0], words[1]];
    numbers.extend(&words[FORWARD..]);
    numbers.extend(&words[4..FORWARD]);
    let mut bytes: Vec<u8> = numbers
        .iter()
        .flat_map(|number| forms::number((*number).into()))
        .collect();
    bytes.extend(key);
    match random.below(4) {
        0 => spoilt(random, bytes),
        _ => bytes,
    }
}

#[cfg(test)]
mod tests {
    use super::*;
    use crate::model::{read_packet, read_record};

    /// Of each kind many are read and many are refused.
    #[test]
    fn forms_of_every_kind() {
        let mut random = Random::new(1);
        let (mut packets, mut records) = ([0; 10], [0; 10]);
        for _ in 0..20_000 {
            match any_form(&mut random) {
                Form::ReadPacket { bytes } => {
                    let refusal = read_packet(&bytes).map_or_else(|no| no.number(), |_| 0);
                    packets[refusal as usize] += 1;
                }
                Form::ReadRecord { bytes } => {
                    let refusal = read_record(&bytes).map_or_else(|no| no.number(), |_| 0);
                    records[refusal as usize] += 1;
                }
                _ => (),
            }
        }
        assert!(packets[0] > 500 && packets[4] > 100 && packets[9] > 100);
        assert!(records[0] > 300 && records[8] > 300 && records[9] > 50);
    }
}
