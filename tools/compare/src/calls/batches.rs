//! Batches at random, whole and spoilt.

use crate::forms;
use crate::model::{read_packet, write_packet};
use crate::random::Random;
use crate::records;
use crate::scripts::make::{Habits, any_habits, packet};
use crate::scripts::times::Times;

/// "35 to 103 bytes."
const LONGEST_PACKET: usize = 103;

/// What the packets of one case have in common.
pub struct Packets {
    habits: Habits,
    pub times: Times,
    /// Added to each kind of tunnel, so that not all are the Rust's.
    kinds: u64,
}

impl Packets {
    pub fn any(random: &mut Random, timeout: u64) -> Self {
        Packets {
            habits: any_habits(random),
            times: Times::any(random, timeout),
            kinds: random.one_of(&[0, 0, 1, 120, 249]),
        }
    }

    pub fn form(&mut self, random: &mut Random) -> Vec<u8> {
        let time = self.times.next(random);
        let form = records::packet(&packet(random, &self.habits, time));
        let (mut packet, _) = read_packet(&form).expect("it is a packet");
        let Some(tunnel) = &mut packet.key.encapsulation else {
            return form;
        };
        tunnel.kind += self.kinds;
        let mut form = vec![0; LONGEST_PACKET];
        let length = write_packet(&packet, &mut form).expect("it is in range");
        form.truncate(length);
        form
    }

    /// Some packets, and nothing else.
    pub fn whole(&mut self, random: &mut Random) -> Vec<u8> {
        let count = random.one_of(&[0, 1, 1, 1, 1, 2, 3, 5, 9]);
        (0..count).flat_map(|_| self.form(random)).collect()
    }

    /// Now and then not only packets.
    pub fn any_batch(&mut self, random: &mut Random) -> Vec<u8> {
        let whole = self.whole(random);
        match random.below(4) {
            0 => spoilt(random, whole),
            _ => whole,
        }
    }
}

/// Bytes with something wrong in them, mostly.
pub fn spoilt(random: &mut Random, mut bytes: Vec<u8>) -> Vec<u8> {
    let place = random.below(bytes.len() + 1);
    let any = random.u8();
    let edge = random.one_of(&[0, 1, 2, 3, 4, 5, 6, 7, 0x7F, 0x80, 0x81, 0xFF, any]);
    match random.below(8) {
        // Cut, often by a byte.
        0 => bytes.truncate(place),
        1 => bytes.truncate(bytes.len().saturating_sub(1)),
        2 => bytes.insert(place, edge),
        3 if place < bytes.len() => drop(bytes.remove(place)),
        4 if place < bytes.len() => bytes[place] = edge,
        // What may have been a number's last byte: not the shortest form of the same.
        5 if place < bytes.len() && bytes[place] < 0x80 => {
            bytes[place] |= 0x80;
            bytes.insert(place + 1, 0);
        }
        // A number past 64 bits, in front or in some place.
        6 => drop(bytes.splice(place..place, forms::number(1 << 64))),
        _ => bytes.extend((0..1 + random.below(20)).map(|_| random.u8())),
    }
    bytes
}

#[cfg(test)]
mod tests {
    use super::*;

    #[test]
    fn batches_are_read_or_refused() {
        let mut random = Random::new(1);
        let mut refusals = [0; 10];
        for _ in 0..2000 {
            let mut packets = Packets::any(&mut random, 1000);
            let batch = packets.any_batch(&mut random);
            let mut rest = &batch[..];
            while !rest.is_empty() {
                match read_packet(rest) {
                    Ok((_, length)) => {
                        refusals[0] += 1;
                        rest = &rest[length..];
                    }
                    Err(refusal) => {
                        refusals[refusal.number() as usize] += 1;
                        break;
                    }
                }
            }
        }
        assert!(refusals[0] > 1000 && refusals[4] > 100 && refusals[9] > 100);
    }
}
