//! A host's own record, as 37 words. Each answers the refusal's number, 0 for none.

use super::raw;

pub fn begin(packet: &[u64; 8], protocol: u64, resolution: u64, record: &mut [u64; 37]) -> u64 {
    unsafe { raw::braidpuddle_begin(packet, protocol, resolution, record) }
}

/// Direction 0 is forward, any other reverse.
pub fn count(record: &mut [u64; 37], direction: u64, packet: &[u64; 8]) -> u64 {
    unsafe { raw::braidpuddle_count(record, direction, packet) }
}
