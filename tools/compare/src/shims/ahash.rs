//! In place of the crate `ahash`: a map with a hasher of the same kind, and at least as fast.
//!
//! aHash, where it is built without AES instructions, does one folded multiplication for each number
//! that is written to it. Here a number costs an addition and a plain multiplication, bytes cost one
//! folded multiplication for every sixteen, and one more at the end mixes it all.

use std::collections::HashMap;
use std::hash::{BuildHasherDefault, Hasher};
use std::ops::{Deref, DerefMut};

type Inner<K, V> = HashMap<K, V, BuildHasherDefault<FoldHasher>>;

/// The standard library's map with a fast hasher, used as `ahash::AHashMap` is.
pub struct AHashMap<K, V>(Inner<K, V>);

impl<K, V> AHashMap<K, V> {
    pub fn new() -> Self {
        AHashMap(Inner::default())
    }
}

impl<K, V> Default for AHashMap<K, V> {
    fn default() -> Self {
        AHashMap::new()
    }
}

impl<K, V> Deref for AHashMap<K, V> {
    type Target = Inner<K, V>;

    fn deref(&self) -> &Self::Target {
        &self.0
    }
}

impl<K, V> DerefMut for AHashMap<K, V> {
    fn deref_mut(&mut self) -> &mut Self::Target {
        &mut self.0
    }
}

/// An odd number with no pattern, from Knuth's MMIX generator.
const STEP: u64 = 0x5851_F42D_4C95_7F2D;

/// Digits of pi.
const START: u64 = 0x243F_6A88_85A3_08D3;
const FIRST_HALF: u64 = 0x1319_8A2E_0370_7344;
const SECOND_HALF: u64 = 0xA409_3822_299F_31D0;
const LAST: u64 = 0x082E_FA98_EC4E_6C89;

/// The same in every run: no key here is chosen by an enemy.
pub struct FoldHasher {
    state: u64,
}

impl Default for FoldHasher {
    #[inline]
    fn default() -> Self {
        FoldHasher { state: START }
    }
}

impl FoldHasher {
    #[inline]
    fn number(&mut self, value: u64) {
        self.state = self.state.wrapping_add(value).wrapping_mul(STEP);
    }

    #[inline]
    fn at_most_sixteen(&mut self, bytes: &[u8]) {
        let (first, second) = halves(bytes);
        self.number(fold(first ^ FIRST_HALF, second ^ SECOND_HALF));
    }
}

impl Hasher for FoldHasher {
    #[inline]
    fn write(&mut self, bytes: &[u8]) {
        if bytes.len() <= 16 {
            self.at_most_sixteen(bytes);
        } else {
            bytes
                .chunks(16)
                .for_each(|chunk| self.at_most_sixteen(chunk));
        }
    }

    #[inline]
    fn write_u8(&mut self, value: u8) {
        self.number(value.into());
    }

    #[inline]
    fn write_u16(&mut self, value: u16) {
        self.number(value.into());
    }

    #[inline]
    fn write_u32(&mut self, value: u32) {
        self.number(value.into());
    }

    #[inline]
    fn write_u64(&mut self, value: u64) {
        self.number(value);
    }

    #[inline]
    fn write_usize(&mut self, value: usize) {
        self.number(value as u64);
    }

    #[inline]
    fn finish(&self) -> u64 {
        fold(self.state, LAST)
    }
}

/// Both halves of the product, one over the other.
#[inline]
fn fold(a: u64, b: u64) -> u64 {
    let product = u128::from(a) * u128::from(b);
    product as u64 ^ (product >> 64) as u64
}

/// At most sixteen bytes as two numbers. They overlap where there are fewer.
#[inline]
fn halves(bytes: &[u8]) -> (u64, u64) {
    if let (Some(first), Some(last)) = (bytes.first_chunk(), bytes.last_chunk()) {
        (u64::from_le_bytes(*first), u64::from_le_bytes(*last))
    } else if let (Some(first), Some(last)) = (bytes.first_chunk(), bytes.last_chunk()) {
        (
            u32::from_le_bytes(*first).into(),
            u32::from_le_bytes(*last).into(),
        )
    } else {
        let value = bytes
            .iter()
            .fold(0, |value, byte| value << 8 | u64::from(*byte));
        (value, bytes.len() as u64)
    }
}

#[cfg(test)]
mod tests {
    use std::collections::HashSet;
    use std::hash::BuildHasher;

    use super::*;
    use crate::answers::keys;
    use crate::random::Random;

    fn hash_of(value: impl std::hash::Hash) -> u64 {
        BuildHasherDefault::<FoldHasher>::default().hash_one(value)
    }

    #[test]
    fn keys_that_differ_have_hashes_that_differ() {
        let mut random = Random::new(1);
        let keys: HashSet<_> = (0..20_000).map(|_| keys::any_key(&mut random)).collect();
        let hashes: HashSet<u64> = keys.iter().map(hash_of).collect();
        assert_eq!(hashes.len(), keys.len());
    }

    /// A map takes the low bits for a key's place and the top seven to tell its neighbours apart.
    #[test]
    fn hashes_of_neighbours_are_spread() {
        let hashes: Vec<u64> = (0..4096u32).map(hash_of).collect();
        for shift in [0, 52] {
            let places: HashSet<u64> = hashes.iter().map(|hash| hash >> shift & 4095).collect();
            // Of 4096 numbers taken at random, 63 in a hundred are there.
            assert!(places.len() > 2400, "{} {shift}", places.len());
        }
    }

    #[test]
    fn strings_of_every_length_differ() {
        let strings: Vec<Vec<u8>> = (0..40).map(|length| vec![0; length]).collect();
        let hashes: HashSet<u64> = strings.iter().map(hash_of).collect();
        assert_eq!(hashes.len(), strings.len());
    }
}
