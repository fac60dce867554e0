//! In place of `net/parser/`: the one struct that the flow engine takes from it.
//!
//! The Rust's own `observation.rs` makes these from frames that the crate `paccel` decodes. Neither
//! that crate nor all of its neighbours are among the sources, and nothing here decodes frames. The
//! fields and functions are those of `observation.rs`.

use std::net::IpAddr;

use crate::flow::{PacketFacts, QuotedFlow, TcpFlags, Timestamp};
use crate::net::types::Key;

/// Everything one captured frame contributes to a flow.
#[derive(Debug, Clone)]
pub struct PacketObservation {
    pub key: Key,
    pub facts: PacketFacts,
    pub dscp: Option<u8>,
    pub ecn: Option<u8>,
    pub arrived_from: (IpAddr, u16),
    pub tcp_flags: Option<TcpFlags>,
    pub l7: Option<FlowL7>,
    pub quoted: Option<QuotedFlow>,
}

impl PacketObservation {
    pub fn reverse_key(&self) -> Key {
        self.key.reversed()
    }

    pub fn time(&self) -> Timestamp {
        self.facts.time
    }
}

/// What a session was carrying. Document 01 leaves it behind, and it is always absent here.
#[derive(Debug, Clone, PartialEq, Eq)]
pub struct FlowL7 {
    pub protocol: &'static str,
    pub name: Option<String>,
}
