//! Reading and writing one form. Each answers the refusal's number, 0 for none.

use super::raw;
use super::{start, start_mut};

/// The answer is the value and the bytes used.
pub fn read_number(bytes: &[u8], most: u64, answer: &mut [u64; 2]) -> u64 {
    unsafe { raw::braidpuddle_read_number(start(bytes), bytes.len(), most, answer) }
}

pub fn write_number(output: &mut [u8], value: u64, most: u64, written: &mut u64) -> u64 {
    let room = output.len();
    unsafe { raw::braidpuddle_write_number(start_mut(output), room, value, most, written) }
}

/// The place is where the key form begins and where the packet form ends.
pub fn read_packet(bytes: &[u8], packet: &mut [u64; 8], place: &mut [u64; 2]) -> u64 {
    unsafe { raw::braidpuddle_read_packet(start(bytes), bytes.len(), packet, place) }
}

pub fn write_packet(output: &mut [u8], packet: &[u64; 8], key: &[u8], written: &mut u64) -> u64 {
    let room = output.len();
    unsafe {
        raw::braidpuddle_write_packet(
            start_mut(output),
            room,
            packet,
            start(key),
            key.len(),
            written,
        )
    }
}

/// The place is where the key form begins, where the record form ends, and the end reason.
pub fn read_record(bytes: &[u8], record: &mut [u64; 37], place: &mut [u64; 3]) -> u64 {
    unsafe { raw::braidpuddle_read_record(start(bytes), bytes.len(), record, place) }
}

pub fn write_record(
    output: &mut [u8],
    record: &[u64; 37],
    reason: u64,
    key: &[u8],
    written: &mut u64,
) -> u64 {
    let room = output.len();
    unsafe {
        raw::braidpuddle_write_record(
            start_mut(output),
            room,
            record,
            reason,
            start(key),
            key.len(),
            written,
        )
    }
}
