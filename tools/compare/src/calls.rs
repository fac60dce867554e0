//! Drives our library beside the model where the Rust cannot judge: refusals, room, capacity, spoilt
//! batches, forms read and written alone, damaged states.
//!
//! A case is opened once and then called several times. `make` makes cases at random, `run` runs them,
//! `show` prints them. What a damaged state means is judged by `layout` and the model.

pub mod batches;
pub mod damage;
pub mod fault;
pub mod forms;
pub mod guard;
pub mod make;
pub mod make_forms;
pub mod run;
pub mod show;
pub mod tally;
pub mod watch;

use crate::engine::Opening;

use damage::Change;
use forms::Form;

/// One state, and what is done to it.
#[derive(Clone)]
pub struct Case {
    /// It is not refused.
    pub opening: Opening,
    pub calls: Vec<Call>,
}

#[derive(Clone)]
pub enum Call {
    Feed {
        batch: Vec<u8>,
        room: Room,
    },
    /// The time is in nanoseconds.
    Sweep {
        time: u64,
        room: Room,
    },
    Drain {
        room: Room,
    },
    /// Opens the same memory again, or as much of it as the opening says.
    OpenAgain(Opening),
    /// Opens other memory, and goes on with it.
    OpenOther(Opening),
    /// Reads or writes one form.
    Form(Form),
    /// Changes bytes of the state by hand.
    Damage(Vec<Change>),
    /// Takes back all damage since the last time that there was none.
    Mend,
}

/// How much output a call is lent. Before it is called so, a call is tried on copies with exactly what
/// it needs, one byte less, and none.
#[derive(Debug, Clone, Copy, PartialEq, Eq)]
pub enum Room {
    /// What it needs, and so many bytes more.
    More(usize),
    /// So many bytes less than it needs, or none.
    Less(usize),
    /// What it needs; before, it is tried with every size from 0 up to that.
    EverySize,
}
