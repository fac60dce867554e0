//! What a flow accumulates, with the key that it is kept under.

use super::key::Key;
use super::packet::FLAGS;

/// "schema, always 1"
pub const SCHEMA: u64 = 1;

/// "end reason (0 IdleTimeout, 1 Fin, 2 Rst, 3 CaptureEnd)"
pub const IDLE_TIMEOUT: u64 = 0;
pub const FIN_REASON: u64 = 1;
pub const RST_REASON: u64 = 2;
pub const CAPTURE_END: u64 = 3;

/// "start state (0 SynObserved, 1 MidStream, 2 NotApplicable)"
pub const SYN_OBSERVED: u64 = 0;
pub const MID_STREAM: u64 = 1;
pub const NOT_APPLICABLE: u64 = 2;

/// The direction that a packet takes in its flow.
#[derive(Debug, Clone, Copy, PartialEq, Eq)]
pub enum Way {
    Forward,
    Reverse,
}

/// What one direction carried.
#[derive(Debug, Clone, PartialEq, Eq, Default)]
pub struct Direction {
    pub packets: u64,
    pub octets: u64,
    pub length_minimum: Option<u64>,
    pub length_maximum: Option<u64>,
    /// In the order of a packet's mask.
    pub flags: [u64; FLAGS],
}

#[derive(Debug, Clone, PartialEq, Eq)]
pub struct Record {
    pub schema: u64,
    /// Absent while the flow is open.
    pub end_reason: Option<u64>,
    pub start_state: u64,
    /// "0 Microseconds, 1 finer"
    pub resolution: u64,
    pub start: u64,
    pub end: u64,
    pub forward: Direction,
    pub reverse: Direction,
    pub ttl_minimum: Option<u64>,
    pub ttl_maximum: Option<u64>,
    pub dscp: Option<u64>,
    pub ecn: Option<u64>,
    pub icmp: Option<u64>,
    pub captured_octets: u64,
    /// 0 or 1.
    pub truncated: u64,
    pub key: Key,
}

impl Record {
    pub fn direction(&mut self, way: Way) -> &mut Direction {
        match way {
            Way::Forward => &mut self.forward,
            Way::Reverse => &mut self.reverse,
        }
    }
}
