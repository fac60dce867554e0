//! A network flow meter: packets go in, flow records come out, one record for each conversation.
//!
//! The rules, the byte forms and the refusals are those of document 01 (in short: `docs/RULES.md` of the repository); names here are the
//! document's words. The work is done by the static library `braidpuddle`, which is proved to meet them. This crate lends it memory and
//! gives its numbers types.
//!
//! - [`Engine`] is fed batches of packet forms, swept and drained.
//! - [`Packet`], [`Key`] and [`Record`] are written as forms and read from them; [`Packets`] and [`Records`] go through many.
//! - [`HostRecord`] is one record without an engine.
//! - [`Refusal`] says what was refused, and why.
//!
//! An engine has no part in another: different engines may be used from different threads at once.
//!
//! The library is found at build time in the folder that `BRAIDPUDDLE_LIB` names, else in the repository's `build/lib`, where
//! `sh tools/library.sh` puts it. Name it by its whole path: another is taken from this crate's folder.
//!
//! ```
//! use braidpuddle::{Engine, Millis, Nanos, Resolution};
//!
//! let mut engine = Engine::open(256, Millis(60_000), Resolution::Finer)?;
//! let mut out = vec![0; engine.room_for_one()];
//! let fed = engine.feed(&[], &mut out);
//! assert_eq!(fed.refusal, None);
//! let swept = engine.sweep(Nanos(1_000_000_000), &mut out)?;
//! for record in swept.finished() {
//!     println!("{}", record?);
//! }
//! # Ok::<(), braidpuddle::Refusal>(())
//! ```
#![deny(unsafe_code)]
#![warn(missing_docs)]

mod engine;
mod face;
mod host;
mod key;
mod number;
mod packet;
mod record;
mod refusal;
mod time;

pub use engine::{room_for_one, Engine, Fed, Written, CAPACITY_MOST};
pub use host::{Direction, HostRecord};
pub use key::{Address, Encapsulation, Endpoints, Key, MacAddress, VlanTags, KEY_MOST};
pub use number::{read_number, write_number, NUMBER_MOST};
pub use packet::{Facts, Icmp, Packet, Packets, TcpFlags, PACKET_MOST};
pub use record::{
    Bounds, Counts, DirectionCounts, EndReason, FlagCounts, Record, Records, StartState,
    RECORD_MOST,
};
pub use refusal::Refusal;
pub use time::{Millis, Nanos, Resolution};
