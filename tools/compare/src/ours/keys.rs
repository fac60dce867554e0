//! Keys, each given as the bytes of one key form.

use super::raw;
use super::{start, start_mut};

/// `NONE` where the bytes are no key form, as for name and version.
pub fn shard(key: &[u8], shards: u64) -> u64 {
    unsafe { raw::braidpuddle_shard(start(key), key.len(), shards) }
}

/// The name's number.
pub fn protocol_name(key: &[u8]) -> u64 {
    unsafe { raw::braidpuddle_protocol_name(start(key), key.len()) }
}

/// 4, 6, or 0 for none.
pub fn ip_version(key: &[u8]) -> u64 {
    unsafe { raw::braidpuddle_ip_version(start(key), key.len()) }
}

/// The refusal's number, 0 for none.
pub fn reversed(key: &[u8], output: &mut [u8], written: &mut u64) -> u64 {
    let room = output.len();
    unsafe { raw::braidpuddle_reversed(start(key), key.len(), start_mut(output), room, written) }
}

/// The refusal's number, 0 for none.
pub fn forget_link_addresses(key: &[u8], output: &mut [u8], written: &mut u64) -> u64 {
    let room = output.len();
    unsafe {
        raw::braidpuddle_forget_link_addresses(
            start(key),
            key.len(),
            start_mut(output),
            room,
            written,
        )
    }
}
