//! Inputs at random, from a seed.

use crate::random::Random;
use crate::records;
use crate::scripts::{Step, make};

use super::input::{ACK, FIN, Input, PSH, RST, SYN, back, conversation, there};

/// The packets of a script that drives engines side by side, behind its settings. It may have more
/// conversations than may be open.
pub fn short_script(seed: u64) -> Input {
    let script = make::script(seed);
    let settings = Input::new(script.opening.timeout, script.opening.resolution);
    script
        .steps
        .iter()
        .fold(settings, |input, step| match step {
            Step::Packet(packet) => input.bytes(&records::packet(packet)),
            _ => input,
        })
}

/// A short script's input with a few bytes changed, and often with its end cut off: most are refused
/// somewhere.
pub fn spoilt(seed: u64) -> Vec<u8> {
    let mut random = Random::new(seed ^ 0x5FB1);
    let mut bytes: Vec<u8> = short_script(seed).into();
    for _ in 0..random.below(4) {
        let place = random.below(bytes.len());
        bytes[place] = random.one_of(&[0, 1, 2, 4, 6, 0x7F, 0x80, 0xFF]);
    }
    let some = 1 + random.below(100);
    let cut = random.one_of(&[0, 0, some]);
    bytes.truncate(bytes.len().saturating_sub(cut));
    bytes
}

/// So many packets of 28 conversations, mostly forward in time, with a timeout of 20 ms: flows close,
/// are reset and idle out again and again, and none is refused.
pub fn mixed(seed: u64, packets: usize) -> Input {
    let mut random = Random::new(seed);
    let masks = [ACK, ACK, ACK, PSH | ACK, SYN, FIN | ACK, FIN | ACK, RST];
    let mut time = 1_000_000_000;
    (0..packets).fold(Input::new(20, 0), |input, _| {
        time += random.u64() % 2_000_000;
        let when = time - random.u64() % 5_000_000;
        let key = conversation(40_000 + random.below(28) as u64);
        let flags = random.one_of(&masks);
        let mut packet = match random.below(2) {
            0 => there(&key, when, flags),
            _ => back(&key, when, flags),
        };
        packet.frame_octets = 54 + random.u64() % 1460;
        input.packet(&packet)
    })
}
