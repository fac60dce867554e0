//! A plain model of document 01: its rules read once more, in the simplest Rust that says them.
//!
//! Flows are a list that is searched from its beginning, a packet is tried on a copy of the state,
//! and every number is 64 bits wide, so that one out of its field's range can be asked about. Words
//! in quotes are document 01's.
//!
//! It shares no code with the Rust or with `forms` and `records`.

pub mod bytes;
pub mod counting;
pub mod feed;
pub mod host;
pub mod key;
pub mod output;
pub mod packet;
pub mod record;
pub mod refusal;
pub mod rules;
pub mod sound;
pub mod state;
pub mod sweep;

mod engine;
mod key_form;
mod packet_form;
mod record_form;

#[cfg(test)]
mod examples;
#[cfg(test)]
mod tests;

pub use bytes::{read_number, write_number};
pub use engine::Model;
pub use feed::feed;
pub use host::{begin, observe};
pub use key::{Address, Encapsulation, Endpoints, Key};
pub use key_form::{form as write_key, whole as read_key};
pub use packet::Packet;
pub use packet_form::{read_packet, write_packet};
pub use record::{Direction, Record, Way};
pub use record_form::{read_record, write_record};
pub use refusal::Refusal;
pub use sound::{sound_record, sound_state};
pub use state::{Flow, State, open};
pub use sweep::{drain, sweep};
