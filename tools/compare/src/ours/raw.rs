//! The library's functions as C sees them: a slice is a pointer and a length.

/// Declares the functions, or, where there is no library, stands in for them.
macro_rules! declare {
    ($($(#[$comment:meta])* fn $name:ident($($argument:ident: $kind:ty),* $(,)?);)*) => {
        #[cfg(braidpuddle)]
        unsafe extern "C" {
            $($(#[$comment])* pub fn $name($($argument: $kind),*) -> u64;)*
        }
        $(
            #[cfg(not(braidpuddle))]
            pub unsafe extern "C" fn $name($(_: $kind),*) -> u64 {
                panic!("the library is not there")
            }
        )*
    };
}

// The engine's calls.
declare! {
    fn braidpuddle_state_bytes(capacity: u64);
    fn braidpuddle_open(
        state: *mut u8,
        state_bytes: usize,
        capacity: u64,
        timeout_ms: u64,
        resolution: u64,
    );
    fn braidpuddle_feed(
        state: *mut u8,
        state_bytes: usize,
        batch: *const u8,
        batch_bytes: usize,
        out: *mut u8,
        out_bytes: usize,
        answer: *mut [u64; 6],
    );
    fn braidpuddle_sweep(
        state: *mut u8,
        state_bytes: usize,
        time_ns: u64,
        out: *mut u8,
        out_bytes: usize,
        answer: *mut [u64; 6],
    );
    fn braidpuddle_drain(
        state: *mut u8,
        state_bytes: usize,
        out: *mut u8,
        out_bytes: usize,
        answer: *mut [u64; 6],
    );
    fn braidpuddle_open_flows(state: *const u8, state_bytes: usize);
}

// The forms.
declare! {
    fn braidpuddle_read_number(
        bytes: *const u8,
        length: usize,
        most: u64,
        answer: *mut [u64; 2],
    );
    fn braidpuddle_write_number(
        out: *mut u8,
        out_bytes: usize,
        value: u64,
        most: u64,
        written: *mut u64,
    );
    fn braidpuddle_read_packet(
        bytes: *const u8,
        length: usize,
        packet: *mut [u64; 8],
        place: *mut [u64; 2],
    );
    fn braidpuddle_write_packet(
        out: *mut u8,
        out_bytes: usize,
        packet: *const [u64; 8],
        key: *const u8,
        key_bytes: usize,
        written: *mut u64,
    );
    fn braidpuddle_read_record(
        bytes: *const u8,
        length: usize,
        record: *mut [u64; 37],
        place: *mut [u64; 3],
    );
    fn braidpuddle_write_record(
        out: *mut u8,
        out_bytes: usize,
        record: *const [u64; 37],
        reason: u64,
        key: *const u8,
        key_bytes: usize,
        written: *mut u64,
    );
}

// Keys.
declare! {
    fn braidpuddle_shard(key: *const u8, key_bytes: usize, shards: u64);
    fn braidpuddle_protocol_name(key: *const u8, key_bytes: usize);
    fn braidpuddle_ip_version(key: *const u8, key_bytes: usize);
    fn braidpuddle_reversed(
        key: *const u8,
        key_bytes: usize,
        out: *mut u8,
        out_bytes: usize,
        written: *mut u64,
    );
    fn braidpuddle_forget_link_addresses(
        key: *const u8,
        key_bytes: usize,
        out: *mut u8,
        out_bytes: usize,
        written: *mut u64,
    );
}

// A host's own record.
declare! {
    fn braidpuddle_begin(
        packet: *const [u64; 8],
        protocol: u64,
        resolution: u64,
        record: *mut [u64; 37],
    );
    fn braidpuddle_count(record: *mut [u64; 37], direction: u64, packet: *const [u64; 8]);
}
