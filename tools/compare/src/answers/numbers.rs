//! Which numbers are asked for: at every length, and around every bound.

use crate::answers::lines;
use crate::forms;
use crate::random::Random;

/// The most bytes that a number of 64 bits takes.
const LONGEST: u32 = 10;

/// The bounds of the forms' fields, and with them some at which a number grows by a byte.
const BOUNDS: [u64; 16] = [
    1,
    2,
    3,
    127,
    128,
    255,
    256,
    511,
    512,
    16383,
    16384,
    65535,
    65536,
    u32::MAX as u64,
    1 << 32,
    u64::MAX,
];

/// `n` lines.
pub fn written(random: &mut Random) -> Vec<String> {
    let mut list = vec![lines::number(65535, 300)];
    for length in 1..=LONGEST {
        let (least, greatest) = numbers_of_length(length);
        let between = least + random.u64() % (greatest - least);
        for value in [least, between, greatest] {
            list.push(lines::number(u64::MAX, value));
        }
    }
    for most in BOUNDS {
        for value in [0, most - 1, most] {
            list.push(lines::number(most, value));
        }
    }
    list
}

/// `w` lines: one above each bound, and far above it. Nothing is above the last.
pub fn refused_writing() -> Vec<String> {
    let mut list = Vec::new();
    for most in BOUNDS {
        if let Some(above) = most.checked_add(1) {
            list.push(lines::refused_writing(most, above));
            list.push(lines::refused_writing(most, u64::MAX));
        }
    }
    list
}

/// `r` lines.
pub fn refused_reading(random: &mut Random) -> Vec<String> {
    let mut list = Vec::new();
    for most in BOUNDS {
        list.push(lines::refused_reading(most, &[]));
        list.push(lines::refused_reading(most, &form_above(most)));
        list.push(lines::refused_reading(most, &[0x80]));
        list.push(lines::refused_reading(most, &[0xFF]));
        list.extend(cuts(most));
        list.extend(edges_of_short(most));
    }
    list.extend(refused_by_every_reader());
    list.extend(refused_at_a_byte());
    list.extend(unfinished(random));
    list
}

/// The least and the greatest number whose form has this many bytes.
fn numbers_of_length(length: u32) -> (u64, u64) {
    let least = if length == 1 {
        0
    } else {
        1 << (7 * (length - 1))
    };
    let greatest = if length == LONGEST {
        u64::MAX
    } else {
        (1 << (7 * length)) - 1
    };
    (least, greatest)
}

fn form_above(most: u64) -> Vec<u8> {
    forms::number(u128::from(most) + 1)
}

/// Every cut of the greatest number: each could still become that number.
fn cuts(most: u64) -> Vec<String> {
    let form = forms::number(most.into());
    (1..form.len())
        .map(|end| lines::refused_reading(most, &form[..end]))
        .collect()
}

/// For each length the last groups that some number within the bound goes on from, and the first
/// that none does.
fn edges_of_short(most: u64) -> Vec<String> {
    let mut list = Vec::new();
    for length in 1..LONGEST {
        // The number that goes on and has 0 in these groups is the least of all that go on.
        let end = 1u64 << (7 * length);
        let last = most.checked_sub(end).filter(|groups| *groups < end);
        if let Some(groups) = last {
            list.push(lines::refused_reading(
                most,
                &unfinished_groups(groups, length),
            ));
            if groups + 1 < end {
                list.push(lines::refused_reading(
                    most,
                    &unfinished_groups(groups + 1, length),
                ));
            }
        }
    }
    list
}

/// These groups, each with the mark that more follow.
fn unfinished_groups(groups: u64, length: u32) -> Vec<u8> {
    (0..length)
        .map(|place| (groups >> (7 * place)) as u8 | 0x80)
        .collect()
}

/// Bytes that begin no number of 64 bits: not the shortest form, too large, or too long.
fn refused_by_every_reader() -> Vec<String> {
    let mut list: Vec<Vec<u8>> = Vec::new();
    for zeros in 1..LONGEST as usize {
        list.push([vec![0x80; zeros], vec![0]].concat());
    }
    list.push(vec![0xFF, 0x00]);
    list.push(vec![0x80, 0x00, 0x01]);
    list.push([vec![0x80; 9], vec![2]].concat());
    list.push([vec![0xFF; 9], vec![2]].concat());
    list.push([vec![0xFF; 9], vec![0x7F]].concat());
    list.push([vec![0x80; 9], vec![0x80]].concat());
    list.push([vec![0xFF; 9], vec![0x81]].concat());
    list.push([vec![0x80; 10], vec![0]].concat());
    list.push([vec![0x80; 10], vec![1]].concat());
    list.push([vec![0xFF; 10], vec![1]].concat());
    list.push([vec![0xFF; 9], vec![0x81, 0x00]].concat());
    list.iter()
        .map(|bytes| lines::refused_reading(u64::MAX, bytes))
        .collect()
}

/// Where the bound alone decides between a beginning and a refusal.
fn refused_at_a_byte() -> Vec<String> {
    let cases: [(u64, &[u8]); 8] = [
        (254, &[0xFF]),
        (255, &[0xFF, 0x81]),
        (255, &[0xFF, 0x02]),
        (2, &[0x83]),
        (2, &[0x80, 0x00]),
        (255, &[0x80, 0x00]),
        (65536, &[0x80, 0x80, 0x05]),
        (65536, &[0x80, 0x80, 0x84]),
    ];
    cases
        .iter()
        .map(|(most, bytes)| lines::refused_reading(*most, bytes))
        .collect()
}

/// Random groups that say more follow, of every length, at the bounds that numbers of that length
/// come near to.
fn unfinished(random: &mut Random) -> Vec<String> {
    let mut list = Vec::new();
    for length in 1..=LONGEST {
        for most in [(1 << 32) - 1, u64::MAX] {
            let bytes: Vec<u8> = (0..length).map(|_| random.u8() | 0x80).collect();
            list.push(lines::refused_reading(most, &bytes));
        }
    }
    list
}
