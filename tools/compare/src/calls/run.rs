//! Runs a case on the library and on the model, and compares every answer, every output byte and what
//! the state means.

use crate::engine::{Answer, Opening};
use crate::layout;
use crate::model::{self, State};
use crate::ours::NONE;
use crate::ours::calls::{self as ours, Answered};

use super::damage::{self, Change};
use super::fault::{Fault, holds, same};
use super::forms;
use super::guard::Guarded;
use super::tally::Tally;
use super::{Call, Case, Room};

/// What the output holds before a call.
const UNTOUCHED: u8 = 0xA5;

/// "At most 358 bytes."
const LONGEST_RECORD: usize = 358;

/// "35 to 103 bytes."
const SHORTEST_PACKET: usize = 35;

pub struct Failure {
    /// The number of the call, or nothing for the opening.
    pub call: Option<usize>,
    pub fault: Fault,
}

/// The state of the library beside that of the model.
struct Bench {
    memory: Guarded,
    /// Nothing where the state is damaged.
    model: Option<State>,
    /// Both as they were before they were damaged by hand.
    before_damage: Option<(Guarded, Option<State>)>,
    tally: Tally,
}

pub fn run(case: &Case) -> Result<Tally, Failure> {
    let mut bench = Bench {
        memory: Guarded::new(&[]),
        model: None,
        before_damage: None,
        tally: Tally::default(),
    };
    let failure = |call, fault| Failure { call, fault };
    bench
        .open_other(&case.opening)
        .map_err(|fault| failure(None, fault))?;
    for (place, call) in case.calls.iter().enumerate() {
        bench
            .step(call)
            .map_err(|fault| failure(Some(place), fault))?;
    }
    bench.tally.cases = 1;
    Ok(bench.tally)
}

impl Bench {
    fn step(&mut self, call: &Call) -> Result<(), Fault> {
        match call {
            Call::Feed { room, .. } | Call::Sweep { room, .. } | Call::Drain { room } => {
                self.call_with(call, *room)
            }
            Call::OpenAgain(opening) => self.open_again(opening),
            Call::OpenOther(opening) => self.open_other(opening),
            Call::Form(form) => forms::run(form, &mut self.tally),
            Call::Damage(changes) => self.damage(changes),
            Call::Mend => {
                if let Some((memory, model)) = self.before_damage.take() {
                    (self.memory, self.model) = (memory, model);
                }
                Ok(())
            }
        }
    }

    /// Tries the call on copies with other sizes of output, and then makes it.
    fn call_with(&mut self, call: &Call, room: Room) -> Result<(), Fault> {
        let needed = bytes_needed(call, &self.model);
        let trials = match room {
            Room::EverySize => (0..=needed).collect(),
            _ => vec![needed, needed.saturating_sub(1), 0],
        };
        for size in trials {
            let (mut memory, mut model) = (self.memory.clone(), self.model.clone());
            self.count(call, both(call, &mut memory, &mut model, size)?);
        }
        let size = match room {
            Room::More(bytes) => needed + bytes,
            Room::Less(bytes) => needed.saturating_sub(bytes),
            Room::EverySize => needed,
        };
        let answer = both(call, &mut self.memory, &mut self.model, size)?;
        self.count(call, answer);
        Ok(())
    }

    fn count(&mut self, call: &Call, answer: Answer) {
        match call {
            Call::Feed { .. } => self.tally.feeds += 1,
            Call::Sweep { .. } => self.tally.sweeps += 1,
            _ => self.tally.drains += 1,
        }
        self.tally.answer(&answer);
    }

    /// A refused opening leaves the state that is there.
    fn open_again(&mut self, opening: &Opening) -> Result<(), Fault> {
        let length = self.memory.inside().len();
        let lent = length.min(opening.memory as usize);
        if let Some(state) = self.open(opening, lent)? {
            self.model = Some(State {
                memory: length as u64,
                ..state
            });
            self.before_damage = None;
        }
        judge_meaning(&self.memory, &self.model)
    }

    fn open_other(&mut self, opening: &Opening) -> Result<(), Fault> {
        let other = Guarded::new(&garbage(opening.memory as usize, 31));
        let before = std::mem::replace(&mut self.memory, other);
        match self.open(opening, opening.memory as usize)? {
            None => self.memory = before,
            opened => {
                self.model = opened;
                self.before_damage = None;
            }
        }
        judge_meaning(&self.memory, &self.model)
    }

    /// Opens the front of the memory. Nothing where that is refused.
    fn open(&mut self, opening: &Opening, lent: usize) -> Result<Option<State>, Fault> {
        let before = self.memory.inside().to_vec();
        let refusal = open_by_library(opening, &mut self.memory.inside_mut()[..lent]);
        let opened = model::open(
            lent as u64,
            opening.capacity,
            opening.timeout,
            opening.resolution,
        );
        let expected = opened.as_ref().err().map_or(0, |refused| refused.number());
        self.tally.openings += 1;
        self.tally.refusal(expected);
        same("the refusal of an opening", expected, refusal)?;
        holds(
            "bytes around the state were touched",
            self.memory.is_whole(),
        )?;
        judge_state_bytes(opening.capacity)?;
        let after = self.memory.inside();
        let opened = opened.ok();
        match &opened {
            None => holds("a refused opening changed memory", before == after)?,
            Some(state) => judge_opened(opening, state, &before, after)?,
        }
        Ok(opened)
    }

    fn damage(&mut self, changes: &[Change]) -> Result<(), Fault> {
        if self.before_damage.is_none() {
            self.before_damage = Some((self.memory.clone(), self.model.clone()));
        }
        let mut memory = self.memory.inside().to_vec();
        for change in changes {
            damage::apply(&mut memory, change);
        }
        self.model = layout::meaning(&memory);
        self.memory = Guarded::new(&memory);
        self.tally.damaged += 1;
        self.tally.still_sound += u64::from(self.model.is_some());
        judge_open_flows(&self.memory, &self.model)
    }
}

/// Bytes that are no state.
fn garbage(length: usize, step: usize) -> Vec<u8> {
    (0..length).map(|place| (place * step + 7) as u8).collect()
}

fn open_by_library(opening: &Opening, state: &mut [u8]) -> u64 {
    ours::open(state, opening.capacity, opening.timeout, opening.resolution)
}

fn judge_state_bytes(capacity: u64) -> Result<(), Fault> {
    let expected = match capacity {
        1..=4096 => 256 + 640 * capacity,
        _ => 0,
    };
    same("state bytes", expected, ours::state_bytes(capacity))
}

/// An opened state is the same bytes whatever was there, and what is beyond it stays.
fn judge_opened(
    opening: &Opening,
    state: &State,
    before: &[u8],
    after: &[u8],
) -> Result<(), Fault> {
    let needed = model::state::memory_needed(state.capacity) as usize;
    same(
        "beyond an opened state",
        &before[needed..],
        &after[needed..],
    )?;
    let mut elsewhere = garbage(needed, 77);
    open_by_library(opening, &mut elsewhere);
    holds(
        "what an opened state holds depends on what was there",
        elsewhere == after[..needed],
    )
}

/// How many bytes of output the call fills if there is enough.
fn bytes_needed(call: &Call, model: &Option<State>) -> usize {
    let flows = model.as_ref().map_or(0, |state| state.flows.len());
    let packets = match call {
        Call::Feed { batch, .. } => batch.len() / SHORTEST_PACKET,
        _ => 0,
    };
    let mut output = vec![0; LONGEST_RECORD * (flows + packets)];
    by_model(call, &mut model.clone(), &mut output).output_bytes as usize
}

/// Calls the library and the model, with so much output, and compares.
fn both(
    call: &Call,
    memory: &mut Guarded,
    model: &mut Option<State>,
    room: usize,
) -> Result<Answer, Fault> {
    let before = memory.inside().to_vec();
    let mut output = Guarded::new(&vec![UNTOUCHED; room]);
    let answered = by_library(call, memory.inside_mut(), output.inside_mut())?;
    let mut expected = vec![UNTOUCHED; room];
    let answer = by_model(call, model, &mut expected);
    let judged = same("the answer", Answered::with(&answer), answered)
        .and_then(|()| same("the output", &expected[..], output.inside()))
        .and_then(|()| holds("bytes around the output were touched", output.is_whole()))
        .and_then(|()| judge_memory(&before, memory, model));
    judged.map_err(|fault| format!("with {room} bytes of output, {fault}"))?;
    Ok(answer)
}

fn by_library(call: &Call, state: &mut [u8], output: &mut [u8]) -> Result<Answered, Fault> {
    Ok(match call {
        Call::Feed { batch, .. } => {
            let lent = Guarded::new(batch);
            let answered = ours::feed(state, lent.inside(), output);
            let untouched = lent.is_whole() && lent.inside() == batch;
            holds("the batch was touched", untouched)?;
            answered
        }
        Call::Sweep { time, .. } => ours::sweep(state, *time, output),
        _ => ours::drain(state, output),
    })
}

/// "Refusals 1, 2, 3 write nothing."
fn by_model(call: &Call, model: &mut Option<State>, output: &mut [u8]) -> Answer {
    let Some(state) = model else {
        return Answer::refused(model::Refusal::Damaged.number());
    };
    match call {
        Call::Feed { batch, .. } => model::feed(state, batch, output),
        Call::Sweep { time, .. } => model::sweep(state, *time, output),
        _ => model::drain(state, output),
    }
}

fn judge_memory(before: &[u8], memory: &Guarded, model: &Option<State>) -> Result<(), Fault> {
    holds("bytes around the state were touched", memory.is_whole())?;
    let after = memory.inside();
    match model {
        None => holds("a damaged state was changed", before == after)?,
        Some(_) => same("spare bytes", layout::spare(before), layout::spare(after))?,
    }
    judge_meaning(memory, model)
}

fn judge_meaning(memory: &Guarded, model: &Option<State>) -> Result<(), Fault> {
    let meaning = layout::meaning(memory.inside());
    let agree = match (&meaning, model) {
        (Some(meaning), Some(state)) => layout::same(meaning, state),
        (meaning, state) => meaning.is_none() && state.is_none(),
    };
    holds(
        &format!("the state: expected {model:?},\n   seen {meaning:?}"),
        agree,
    )?;
    judge_open_flows(memory, model)
}

fn judge_open_flows(memory: &Guarded, model: &Option<State>) -> Result<(), Fault> {
    let expected = match model {
        Some(state) => state.flows.len() as u64,
        None => NONE,
    };
    same("open flows", expected, ours::open_flows(memory.inside()))
}

#[cfg(all(test, braidpuddle))]
mod tests {
    use super::*;
    use crate::calls::make;

    #[test]
    fn the_library_and_the_model_agree() {
        let mut tally = Tally::default();
        for seed in 0..500 {
            match run(&make::case(seed)) {
                Ok(one) => tally.add(&one),
                Err(failure) => panic!("the case of seed {seed}: {}", failure.fault),
            }
        }
        assert!(tally.refusals.iter().all(|count| *count > 20), "{tally}");
        assert!(tally.still_sound > 20 && tally.damaged > 2 * 20 + tally.still_sound);
    }
}
