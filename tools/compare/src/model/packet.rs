//! What a probe hands in.

use super::key::Key;

/// The places of the flags in a packet's mask: "from bit 0 fin, syn, rst, psh, ack, urg, ece, cwr,
/// ns".
pub const FIN: usize = 0;
pub const SYN: usize = 1;
pub const RST: usize = 2;
pub const FLAGS: usize = 9;

#[derive(Debug, Clone, PartialEq, Eq)]
pub struct Packet {
    /// In nanoseconds.
    pub time: u64,
    pub frame_octets: u64,
    pub captured_octets: u64,
    pub ttl: Option<u64>,
    pub tcp_flags: Option<u64>,
    /// "256 × type + code"
    pub icmp: Option<u64>,
    pub dscp: Option<u64>,
    pub ecn: Option<u64>,
    pub key: Key,
}

impl Packet {
    /// Whether a flag is set. None is where the packet has no flags.
    pub fn has(&self, flag: usize) -> bool {
        self.tcp_flags.is_some_and(|mask| mask >> flag & 1 == 1)
    }

    /// Whether every field is within its bound.
    pub fn in_range(&self) -> bool {
        self.frame_octets < 1 << 32
            && self.captured_octets < 1 << 32
            && self.ttl.is_none_or(|ttl| ttl < 1 << 8)
            && self.tcp_flags.is_none_or(|mask| mask < 1 << FLAGS)
            && self.icmp.is_none_or(|icmp| icmp < 1 << 16)
            && self.dscp.is_none_or(|dscp| dscp < 1 << 8)
            && self.ecn.is_none_or(|ecn| ecn < 1 << 8)
            && self.key.in_range()
    }
}
