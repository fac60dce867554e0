//! The library's functions, over slices. The only module with unsafe code.
//!
//! Why each call is sound: a slice hands over its own pointer and length, an array its own pointer, and the borrow lasts for the
//! call. The library stays inside the memory that it is lent, on any bytes, keeps no pointer, and has no state of its own.
#![allow(unsafe_code)]

mod library {
    extern "C" {
        pub fn braidpuddle_state_bytes(capacity: u64) -> u64;
        pub fn braidpuddle_open(
            state: *mut u8,
            state_length: usize,
            capacity: u64,
            timeout_ms: u64,
            resolution: u64,
        ) -> u64;
        pub fn braidpuddle_feed(
            state: *mut u8,
            state_length: usize,
            batch: *const u8,
            batch_length: usize,
            out: *mut u8,
            out_length: usize,
            answer: *mut [u64; 6],
        ) -> u64;
        pub fn braidpuddle_sweep(
            state: *mut u8,
            state_length: usize,
            time_ns: u64,
            out: *mut u8,
            out_length: usize,
            answer: *mut [u64; 6],
        ) -> u64;
        pub fn braidpuddle_drain(
            state: *mut u8,
            state_length: usize,
            out: *mut u8,
            out_length: usize,
            answer: *mut [u64; 6],
        ) -> u64;
        pub fn braidpuddle_open_flows(state: *const u8, state_length: usize) -> u64;

        pub fn braidpuddle_read_number(
            bytes: *const u8,
            length: usize,
            most: u64,
            answer: *mut [u64; 2],
        ) -> u64;
        pub fn braidpuddle_write_number(
            out: *mut u8,
            out_length: usize,
            value: u64,
            most: u64,
            written: *mut u64,
        ) -> u64;
        pub fn braidpuddle_read_packet(
            bytes: *const u8,
            length: usize,
            packet: *mut [u64; 8],
            place: *mut [u64; 2],
        ) -> u64;
        pub fn braidpuddle_write_packet(
            out: *mut u8,
            out_length: usize,
            packet: *const [u64; 8],
            key: *const u8,
            key_length: usize,
            written: *mut u64,
        ) -> u64;
        pub fn braidpuddle_read_record(
            bytes: *const u8,
            length: usize,
            record: *mut [u64; 37],
            place: *mut [u64; 3],
        ) -> u64;
        pub fn braidpuddle_write_record(
            out: *mut u8,
            out_length: usize,
            record: *const [u64; 37],
            reason: u64,
            key: *const u8,
            key_length: usize,
            written: *mut u64,
        ) -> u64;

        pub fn braidpuddle_shard(key: *const u8, key_length: usize, shards: u64) -> u64;
        pub fn braidpuddle_protocol_name(key: *const u8, key_length: usize) -> u64;
        pub fn braidpuddle_ip_version(key: *const u8, key_length: usize) -> u64;
        pub fn braidpuddle_reversed(
            key: *const u8,
            key_length: usize,
            out: *mut u8,
            out_length: usize,
            written: *mut u64,
        ) -> u64;
        pub fn braidpuddle_forget_link_addresses(
            key: *const u8,
            key_length: usize,
            out: *mut u8,
            out_length: usize,
            written: *mut u64,
        ) -> u64;

        pub fn braidpuddle_begin(
            packet: *const [u64; 8],
            protocol: u64,
            resolution: u64,
            record: *mut [u64; 37],
        ) -> u64;
        pub fn braidpuddle_count(
            record: *mut [u64; 37],
            direction: u64,
            packet: *const [u64; 8],
        ) -> u64;
    }
}

// The library's lengths are 64-bit numbers.
const _: () = assert!(usize::BITS == 64);

/// A packet without its key, as numbers.
pub type PacketNumbers = [u64; 8];

/// A record without its key and its end reason, as numbers.
pub type RecordNumbers = [u64; 37];

/// What feed, sweep and drain answer: refusal, packets, bytes used, flows opened, records, bytes filled.
pub type Answer = [u64; 6];

// ---- the engine's calls

pub fn state_bytes(capacity: u64) -> u64 {
    unsafe { library::braidpuddle_state_bytes(capacity) }
}

pub fn open(state: &mut [u8], capacity: u64, timeout_ms: u64, resolution: u64) -> u64 {
    unsafe {
        library::braidpuddle_open(
            state.as_mut_ptr(),
            state.len(),
            capacity,
            timeout_ms,
            resolution,
        )
    }
}

pub fn feed(state: &mut [u8], batch: &[u8], out: &mut [u8]) -> Answer {
    let mut answer = [0; 6];
    unsafe {
        library::braidpuddle_feed(
            state.as_mut_ptr(),
            state.len(),
            batch.as_ptr(),
            batch.len(),
            out.as_mut_ptr(),
            out.len(),
            &mut answer,
        );
    }
    answer
}

pub fn sweep(state: &mut [u8], time_ns: u64, out: &mut [u8]) -> Answer {
    let mut answer = [0; 6];
    unsafe {
        library::braidpuddle_sweep(
            state.as_mut_ptr(),
            state.len(),
            time_ns,
            out.as_mut_ptr(),
            out.len(),
            &mut answer,
        );
    }
    answer
}

pub fn drain(state: &mut [u8], out: &mut [u8]) -> Answer {
    let mut answer = [0; 6];
    unsafe {
        library::braidpuddle_drain(
            state.as_mut_ptr(),
            state.len(),
            out.as_mut_ptr(),
            out.len(),
            &mut answer,
        );
    }
    answer
}

pub fn open_flows(state: &[u8]) -> u64 {
    unsafe { library::braidpuddle_open_flows(state.as_ptr(), state.len()) }
}

// ---- forms alone: the refusal's number first

pub fn read_number(bytes: &[u8], most: u64) -> (u64, [u64; 2]) {
    let mut answer = [0; 2];
    let refusal =
        unsafe { library::braidpuddle_read_number(bytes.as_ptr(), bytes.len(), most, &mut answer) };
    (refusal, answer)
}

pub fn write_number(out: &mut [u8], value: u64, most: u64) -> (u64, u64) {
    let mut written = 0;
    let refusal = unsafe {
        library::braidpuddle_write_number(out.as_mut_ptr(), out.len(), value, most, &mut written)
    };
    (refusal, written)
}

pub fn read_packet(bytes: &[u8]) -> (u64, PacketNumbers, [u64; 2]) {
    let mut packet = [0; 8];
    let mut place = [0; 2];
    let refusal = unsafe {
        library::braidpuddle_read_packet(bytes.as_ptr(), bytes.len(), &mut packet, &mut place)
    };
    (refusal, packet, place)
}

pub fn write_packet(out: &mut [u8], packet: &PacketNumbers, key: &[u8]) -> (u64, u64) {
    let mut written = 0;
    let refusal = unsafe {
        library::braidpuddle_write_packet(
            out.as_mut_ptr(),
            out.len(),
            packet,
            key.as_ptr(),
            key.len(),
            &mut written,
        )
    };
    (refusal, written)
}

pub fn read_record(bytes: &[u8]) -> (u64, RecordNumbers, [u64; 3]) {
    let mut record = [0; 37];
    let mut place = [0; 3];
    let refusal = unsafe {
        library::braidpuddle_read_record(bytes.as_ptr(), bytes.len(), &mut record, &mut place)
    };
    (refusal, record, place)
}

pub fn write_record(out: &mut [u8], record: &RecordNumbers, reason: u64, key: &[u8]) -> (u64, u64) {
    let mut written = 0;
    let refusal = unsafe {
        library::braidpuddle_write_record(
            out.as_mut_ptr(),
            out.len(),
            record,
            reason,
            key.as_ptr(),
            key.len(),
            &mut written,
        )
    };
    (refusal, written)
}

// ---- keys

pub fn shard(key: &[u8], shards: u64) -> u64 {
    unsafe { library::braidpuddle_shard(key.as_ptr(), key.len(), shards) }
}

pub fn protocol_name(key: &[u8]) -> u64 {
    unsafe { library::braidpuddle_protocol_name(key.as_ptr(), key.len()) }
}

pub fn ip_version(key: &[u8]) -> u64 {
    unsafe { library::braidpuddle_ip_version(key.as_ptr(), key.len()) }
}

/// A function of the library that writes a key made of the one given.
type KeyMaker = unsafe extern "C" fn(*const u8, usize, *mut u8, usize, *mut u64) -> u64;

fn made_key(make: KeyMaker, key: &[u8], out: &mut [u8]) -> (u64, u64) {
    let mut written = 0;
    let refusal = unsafe {
        make(
            key.as_ptr(),
            key.len(),
            out.as_mut_ptr(),
            out.len(),
            &mut written,
        )
    };
    (refusal, written)
}

pub fn reversed(key: &[u8], out: &mut [u8]) -> (u64, u64) {
    made_key(library::braidpuddle_reversed, key, out)
}

pub fn forget_link_addresses(key: &[u8], out: &mut [u8]) -> (u64, u64) {
    made_key(library::braidpuddle_forget_link_addresses, key, out)
}

// ---- a host's own record

pub fn begin(packet: &PacketNumbers, protocol: u64, resolution: u64) -> (u64, RecordNumbers) {
    let mut record = [0; 37];
    let refusal = unsafe { library::braidpuddle_begin(packet, protocol, resolution, &mut record) };
    (refusal, record)
}

pub fn count(record: &mut RecordNumbers, direction: u64, packet: &PacketNumbers) -> u64 {
    unsafe { library::braidpuddle_count(record, direction, packet) }
}
