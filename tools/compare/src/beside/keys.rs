//! One key: shard, name, version, reversed, link addresses forgotten.

use crate::answers::keys::any_key;
use crate::calls::batches::spoilt;
use crate::calls::fault::{Fault, holds, same};
use crate::calls::guard::Guarded;
use crate::flow::FlowKey;
use crate::forms;
use crate::model::{self, Key, read_key, write_key};
use crate::ours::{NONE, keys as ours};
use crate::random::Random;
use crate::rust_engine;
use crate::scripts::keys::conversations;

/// The refusals for a key that is no key form, and for too little room.
const PACKET: u64 = 4;
const ROOM: u64 = 7;

/// What stands in lent memory before a call.
const BEFORE: u64 = 0x5A5A_5A5A_5A5A_5A5A;
const UNTOUCHED: u8 = 0xA5;

/// The names by the library's numbers.
const NAMES: [&str; 14] = [
    "", "arp", "icmp", "igmp", "tcp", "udp", "ipv6", "gre", "esp", "ah", "icmpv6", "ospf", "vrrp",
    "sctp",
];

const SHARDS: [u64; 12] = [
    0,
    1,
    2,
    3,
    7,
    16,
    100,
    4096,
    65537,
    1 << 32,
    u64::MAX - 1,
    u64::MAX,
];

/// What the keys have covered.
#[derive(Debug, Clone, Default)]
pub struct Tally {
    pub keys: u64,
    /// Those that the Rust has as well.
    pub with_the_rust: u64,
    /// Those that are no key form.
    pub refused: u64,
}

/// A key's form, made from the seed, now and then spoilt or with a tunnel that the Rust has not.
pub fn any_form(seed: u64) -> Vec<u8> {
    let mut random = Random::new(seed);
    let key = match random.below(2) {
        0 => any_key(&mut random),
        _ => {
            let keys = conversations(&mut random);
            random.one_of(&keys)
        }
    };
    let form = forms::key(&key);
    match random.below(8) {
        0 => spoilt(&mut random, form),
        1 => with_any_kind(&mut random, &form),
        _ => form,
    }
}

fn with_any_kind(random: &mut Random, form: &[u8]) -> Vec<u8> {
    let mut key = read_key(form).expect("it is a key");
    if let Some(tunnel) = &mut key.encapsulation {
        tunnel.kind = random.u8().into();
    }
    write_key(&key)
}

/// Asks the library all about one key, and compares.
pub fn compare(form: &[u8], tally: &mut Tally) -> Result<(), Fault> {
    let lent = Guarded::new(form);
    tally.keys += 1;
    let Some(key) = read_key(form) else {
        tally.refused += 1;
        return judge_no_key(lent.inside());
    };
    judge_by_model(lent.inside(), &key)?;
    if let Some(key) = rust_engine::read_key(form) {
        tally.with_the_rust += 1;
        judge_by_the_rust(lent.inside(), &key)?;
    }
    Ok(())
}

fn judge_no_key(form: &[u8]) -> Result<(), Fault> {
    for shards in SHARDS {
        same("shard of no key", NONE, ours::shard(form, shards))?;
    }
    same("name of no key", NONE, ours::protocol_name(form))?;
    same("version of no key", NONE, ours::ip_version(form))?;
    for room in [0, 27, 80] {
        judge_output("no key, reversed", Err(PACKET), room, |output, written| {
            ours::reversed(form, output, written)
        })?;
        judge_output("no key, forgotten", Err(PACKET), room, |output, written| {
            ours::forget_link_addresses(form, output, written)
        })?;
    }
    Ok(())
}

/// What holds of any key, also of one that the Rust has not.
fn judge_by_model(form: &[u8], key: &Key) -> Result<(), Fault> {
    judge_reversed(form, &write_key(&key.reversed()))?;
    let forgotten = model::Key {
        source_mac: [0; 6],
        destination_mac: [0; 6],
        ..key.clone()
    };
    judge_forgotten(form, &write_key(&forgotten))?;
    let reversed = write_key(&key.reversed());
    for shards in SHARDS {
        let shard = ours::shard(form, shards);
        same(
            "shard of the reverse",
            shard,
            ours::shard(&reversed, shards),
        )?;
        holds("a shard past their number", shard < shards.max(1))?;
    }
    Ok(())
}

fn judge_by_the_rust(form: &[u8], key: &FlowKey) -> Result<(), Fault> {
    for shards in SHARDS {
        let expected = key.shard(shards as usize) as u64;
        same(
            "shard",
            (shards, expected),
            (shards, ours::shard(form, shards)),
        )?;
    }
    let name = NAMES.get(ours::protocol_name(form) as usize);
    same("protocol name", Some(&key.protocol_name()), name)?;
    let version = key.ip_version().map_or(0, u64::from);
    same("IP version", version, ours::ip_version(form))?;
    judge_reversed(form, &forms::key(&key.reversed()))?;
    let mut forgotten = *key;
    forgotten.forget_link_addresses();
    judge_forgotten(form, &forms::key(&forgotten))
}

fn judge_reversed(form: &[u8], expected: &[u8]) -> Result<(), Fault> {
    judge_written("reversed", expected, |output, written| {
        ours::reversed(form, output, written)
    })
}

fn judge_forgotten(form: &[u8], expected: &[u8]) -> Result<(), Fault> {
    judge_written("link addresses forgotten", expected, |output, written| {
        ours::forget_link_addresses(form, output, written)
    })
}

/// With more room than is needed, exactly that, one byte less, and none.
fn judge_written(
    what: &str,
    form: &[u8],
    call: impl Fn(&mut [u8], &mut u64) -> u64,
) -> Result<(), Fault> {
    for room in [form.len() + 5, form.len(), form.len() - 1, 0] {
        let fits = room >= form.len();
        let expected = if fits { Ok(form) } else { Err(ROOM) };
        judge_output(what, expected, room, &call)?;
    }
    Ok(())
}

/// The bytes that are written, or the refusal, with nothing written.
fn judge_output(
    what: &str,
    expected: Result<&[u8], u64>,
    room: usize,
    call: impl Fn(&mut [u8], &mut u64) -> u64,
) -> Result<(), Fault> {
    let mut output = Guarded::new(&vec![UNTOUCHED; room]);
    let mut written = BEFORE;
    let refusal = call(output.inside_mut(), &mut written);
    let mut bytes = vec![UNTOUCHED; room];
    let numbers = match expected {
        Ok(form) => {
            bytes[..form.len()].copy_from_slice(form);
            (0, form.len() as u64)
        }
        Err(refusal) => (refusal, BEFORE),
    };
    same(what, numbers, (refusal, written))?;
    same(what, &bytes[..], output.inside())?;
    holds("bytes around the output were touched", output.is_whole())
}

#[cfg(test)]
mod tests {
    use super::*;

    #[test]
    fn keys_of_every_kind() {
        let (mut whole, mut the_rusts, mut spoilt) = (0, 0, 0);
        for seed in 0..2000 {
            let form = any_form(seed);
            match (read_key(&form), rust_engine::read_key(&form)) {
                (Some(_), Some(_)) => the_rusts += 1,
                (Some(_), None) => whole += 1,
                (None, _) => spoilt += 1,
            }
        }
        assert!(the_rusts > 1000 && whole > 20 && spoilt > 100);
    }

    /// Every name that key.rs has is among the numbers.
    #[test]
    fn names_of_the_rust() {
        for protocol in 0..=255 {
            assert!(NAMES.contains(&crate::flow::protocol_name(protocol)));
        }
    }

    #[cfg(braidpuddle)]
    #[test]
    fn the_library_agrees() {
        let mut tally = Tally::default();
        for seed in 0..2000 {
            if let Err(fault) = compare(&any_form(seed), &mut tally) {
                panic!("the key of seed {seed}: {fault}");
            }
        }
        assert!(tally.with_the_rust > 1000 && tally.refused > 100);
    }
}
