//! A host's own record: begun and counted on by the library, by the model, and by the Rust as long as
//! nothing is in it that the Rust has not.

use crate::answers::folds::{any_fold, open_record};
use crate::answers::keys::plainest;
use crate::calls::damage::Value;
use crate::calls::fault::{Fault, same};
use crate::calls::make::{SUMS, nearly_spent};
use crate::calls::make_forms::any_value;
use crate::flow::{self, FlowKey, FlowRecord, TimeResolution};
use crate::forms;
use crate::model::{self, Key, Way, read_key};
use crate::ours::host as ours;
use crate::random::Random;
use crate::words::{self, Facts, WORDS, Words};

/// What stands in a record's words before it is begun.
const BEFORE: Words = [0x5A5A_5A5A_5A5A_5A5A; WORDS];

/// A record from its first packet on.
#[derive(Debug, Clone)]
pub struct Host {
    pub protocol: u64,
    pub resolution: u64,
    pub first: Facts,
    pub steps: Vec<Step>,
}

/// A packet that is counted.
#[derive(Debug, Clone)]
pub struct Step {
    /// What is changed in the words before. A refusal takes it back.
    pub changes: Vec<(usize, Value)>,
    pub direction: u64,
    pub facts: Facts,
}

/// What the records have covered.
#[derive(Debug, Clone, Default)]
pub struct Tally {
    pub records: u64,
    pub packets: u64,
    /// Packets that the Rust counted too.
    pub with_the_rust: u64,
    /// Packets by their refusal's number, 0 for none.
    pub refusals: [u64; 10],
}

/// Every other one is such as the Rust has.
pub fn any_host(seed: u64) -> Host {
    let mut random = Random::new(seed);
    let fold = any_fold(&mut random);
    let facts: Vec<Facts> = fold
        .packets
        .iter()
        .map(|(_, packet)| words::facts_of_rust(packet))
        .collect();
    let way = |way: flow::Direction| u64::from(way == flow::Direction::Reverse);
    let ways = fold.packets.iter().map(|(direction, _)| way(*direction));
    let steps = ways.zip(&facts).skip(1).map(|(direction, facts)| Step {
        changes: Vec::new(),
        direction,
        facts: *facts,
    });
    let mut host = Host {
        protocol: fold.key().protocol.into(),
        resolution: random.one_of(&[0, 1]),
        first: facts[0],
        steps: steps.collect(),
    };
    if random.below(2) == 0 {
        make_odd(&mut random, &mut host);
    }
    host
}

fn make_odd(random: &mut Random, host: &mut Host) {
    let any = random.u64();
    host.resolution = random.one_of(&[0, 1, 2, any]);
    if random.below(12) == 0 {
        host.protocol = random.one_of(&[256, 262, u64::MAX]);
    }
    if random.below(8) == 0 {
        change_facts(random, &mut host.first);
    }
    for step in &mut host.steps {
        let more = random.u64() | 1;
        step.direction = random.one_of(&[step.direction, step.direction.wrapping_mul(more)]);
        if random.below(3) == 0 {
            change_facts(random, &mut step.facts);
        }
        step.changes = any_changes(random);
    }
}

fn change_facts(random: &mut Random, facts: &mut Facts) {
    let place = random.below(facts.len());
    facts[place] = any_value(random).of(facts[place]);
}

fn any_changes(random: &mut Random) -> Vec<(usize, Value)> {
    match random.below(4) {
        0 => vec![(random.one_of(&SUMS), nearly_spent(random))],
        1 => (0..1 + random.below(2))
            .map(|_| (random.below(WORDS), any_value(random)))
            .collect(),
        _ => Vec::new(),
    }
}

/// A record in the hands of all that count on it.
struct Held {
    words: Words,
    /// The record's words do not say the key: this one is as good as any.
    key: Key,
    /// Nothing once it has something that the Rust has not.
    the_rusts: Option<FlowRecord>,
}

pub fn compare(host: &Host, tally: &mut Tally) -> Result<(), Fault> {
    tally.records += 1;
    let Some(mut held) = begin(host, tally)? else {
        return Ok(());
    };
    for step in &host.steps {
        count(&mut held, step, tally)?;
    }
    Ok(())
}

/// Nothing where beginning is refused.
fn begin(host: &Host, tally: &mut Tally) -> Result<Option<Held>, Fault> {
    let mut record = BEFORE;
    let refusal = ours::begin(&host.first, host.protocol, host.resolution, &mut record);
    let key = read_key(&forms::key(&plainest())).expect("it is a key");
    let key = Key {
        protocol: host.protocol,
        ..key
    };
    let packet = words::facts_to_model(&host.first, key.clone());
    let expected = match model::begin(&packet, host.resolution) {
        Ok(record) => (0, words::of_model(&record)),
        Err(refusal) => (refusal.number(), BEFORE),
    };
    tally.packets += 1;
    tally.refusals[expected.0 as usize] += 1;
    same("beginning", expected, (refusal, record))?;
    if refusal != 0 {
        return Ok(None);
    }
    let the_rusts = begun_by_the_rust(host);
    judge_by_the_rust(&the_rusts, &record, tally)?;
    Ok(Some(Held {
        words: record,
        key,
        the_rusts,
    }))
}

fn begun_by_the_rust(host: &Host) -> Option<FlowRecord> {
    let key = FlowKey {
        protocol: host.protocol.try_into().ok()?,
        ..plainest()
    };
    let packet = words::facts_to_rust(&host.first, key)?;
    let resolution = match host.resolution {
        0 => TimeResolution::Microseconds,
        _ => TimeResolution::Nanoseconds,
    };
    let mut record = open_record(&packet, resolution);
    record.observe(flow::Direction::Forward, packet.facts);
    Some(record)
}

fn judge_by_the_rust(
    record: &Option<FlowRecord>,
    seen: &Words,
    tally: &mut Tally,
) -> Result<(), Fault> {
    let Some(record) = record else {
        return Ok(());
    };
    tally.with_the_rust += 1;
    same("beside the Rust", words::of_rust(record), *seen)
}

/// Counts one packet. Where it is refused, the record stays as it was.
fn count(held: &mut Held, step: &Step, tally: &mut Tally) -> Result<(), Fault> {
    let mut changed = held.words;
    for (word, value) in &step.changes {
        changed[*word] = value.of(changed[*word]);
    }
    let mut seen = changed;
    let refusal = ours::count(&mut seen, step.direction, &step.facts);
    let expected = counted_by_model(held, &changed, step);
    tally.packets += 1;
    tally.refusals[expected.0 as usize] += 1;
    same("counting", expected, (refusal, seen))?;
    if refusal != 0 {
        return Ok(());
    }
    if changed != held.words {
        held.the_rusts = None;
    }
    held.words = seen;
    count_by_the_rust(held, step);
    judge_by_the_rust(&held.the_rusts, &seen, tally)
}

/// The refusal's number, and the words afterwards.
fn counted_by_model(held: &Held, words: &Words, step: &Step) -> (u64, Words) {
    let mut record = words::to_model(words, None, held.key.clone());
    let packet = words::facts_to_model(&step.facts, held.key.clone());
    let way = match step.direction {
        0 => Way::Forward,
        _ => Way::Reverse,
    };
    match model::observe(&mut record, way, &packet) {
        Ok(()) => (0, words::of_model(&record)),
        Err(refusal) => (refusal.number(), *words),
    }
}

fn count_by_the_rust(held: &mut Held, step: &Step) {
    let packet = words::facts_to_rust(&step.facts, plainest());
    let direction = match step.direction {
        0 => flow::Direction::Forward,
        _ => flow::Direction::Reverse,
    };
    if let (Some(record), Some(packet)) = (&mut held.the_rusts, packet) {
        record.observe(direction, packet.facts);
    }
}

#[cfg(test)]
mod tests {
    use super::*;

    #[test]
    fn hosts_of_every_kind() {
        let hosts: Vec<Host> = (0..1000).map(any_host).collect();
        let some = |test: &dyn Fn(&Host) -> bool| {
            let count = hosts.iter().filter(|host| test(host)).count();
            assert!(count > 10, "{count}");
        };
        some(&|host| host.protocol > 255);
        some(&|host| host.steps.iter().all(|step| step.changes.is_empty()));
        some(&|host| host.steps.iter().any(|step| !step.changes.is_empty()));
        some(&|host| host.steps.iter().any(|step| step.direction > 1));
        some(&|host| begun_by_the_rust(host).is_none());
    }

    #[cfg(braidpuddle)]
    #[test]
    fn the_library_agrees() {
        let mut tally = Tally::default();
        for seed in 0..2000 {
            if let Err(fault) = compare(&any_host(seed), &mut tally) {
                panic!("the record of seed {seed}: {fault}");
            }
        }
        assert!(
            [0, 3, 4, 6]
                .iter()
                .all(|number| tally.refusals[*number] > 50)
        );
        assert!(tally.with_the_rust > 2000);
    }
}
