//! Scripts at random.

use crate::answers::folds::any_packet;
use crate::engine::Opening;
use crate::flow::FlowKey;
use crate::random::Random;
use crate::records::{Packet, flags};

use super::keys::conversations;
use super::times::{Times, any_timeout};
use super::{Script, Step};

/// The greatest capacity, which one script in so many has. The others have as much as they can need,
/// so that nothing is ever refused.
const MOST_CAPACITY: u64 = 4096;
const FEW_HAVE_MOST: u64 = 64;

const FIN: u16 = 1 << 0;
const SYN: u16 = 1 << 1;
const RST: u16 = 1 << 2;
const PSH: u16 = 1 << 3;
const ACK: u16 = 1 << 4;

/// The flags of one script's packets are among these. Flows are to come to their second FIN, and past
/// it, often: so most lists have few RSTs.
const MASKS: [&[u16]; 4] = [
    &[ACK, FIN, FIN | ACK, FIN | ACK, SYN, SYN | ACK],
    &[
        ACK,
        FIN,
        FIN | ACK,
        FIN | ACK,
        FIN | ACK,
        SYN,
        SYN | FIN,
        SYN | RST,
    ],
    &[
        0,
        ACK,
        ACK,
        PSH | ACK,
        SYN,
        FIN,
        FIN | ACK,
        FIN | ACK,
        FIN | ACK,
        RST,
    ],
    &[
        ACK,
        SYN,
        FIN,
        FIN | ACK,
        RST | ACK,
        SYN | RST,
        FIN | RST,
        SYN | FIN | RST,
    ],
];

/// What the steps of one script have in common.
pub struct Habits {
    pub keys: Vec<FlowKey>,
    masks: &'static [u16],
    /// One packet in so many has any flags at all, or none.
    odd: usize,
    /// One packet in so many goes the other way.
    turns: usize,
    /// One step in so many is no packet.
    calm: usize,
}

pub fn script(seed: u64) -> Script {
    let mut random = Random::new(seed);
    let timeout = any_timeout(&mut random);
    let resolution = random.one_of(&[0, 1]);
    let mut times = Times::any(&mut random, timeout);
    let habits = any_habits(&mut random);
    // Many keys have several packets each as well.
    let most = random.one_of(&[8, 40, 80, 160]);
    let count = 1 + random.below(most) + 3 * habits.keys.len();
    let steps = (0..count)
        .map(|_| any_step(&mut random, &habits, &mut times))
        .collect();
    let capacity = if seed.is_multiple_of(FEW_HAVE_MOST) {
        MOST_CAPACITY
    } else {
        count as u64
    };
    Script {
        opening: Opening::with_enough_memory(capacity, timeout, resolution),
        batch: random.one_of(&[1, 1, 1, 2, 7, 1000]),
        steps,
    }
}

pub fn any_habits(random: &mut Random) -> Habits {
    Habits {
        keys: conversations(random),
        masks: random.one_of(&MASKS),
        odd: random.one_of(&[5, 20, 1000]),
        turns: random.one_of(&[2, 2, 3, 10]),
        calm: random.one_of(&[6, 12, 12, 100]),
    }
}

fn any_step(random: &mut Random, habits: &Habits, times: &mut Times) -> Step {
    if random.below(habits.calm) > 0 {
        let time = times.next(random);
        Step::Packet(packet(random, habits, time))
    } else if random.below(8) > 0 {
        Step::Sweep(times.next(random))
    } else {
        Step::Drain
    }
}

pub fn packet(random: &mut Random, habits: &Habits, time: u64) -> Packet {
    let key = random.one_of(&habits.keys);
    let turned = random.below(habits.turns) == 0;
    let way = if turned { key.reversed() } else { key };
    let mut packet = any_packet(random, way, time);
    if random.below(habits.odd) > 0 {
        packet.facts.tcp_flags = Some(flags(random.one_of(habits.masks)));
    }
    packet
}
