//! What an engine is called with, and what it answers: bytes in, bytes out.

/// What an engine is opened with.
#[derive(Debug, Clone, Copy, PartialEq, Eq)]
pub struct Opening {
    /// How many bytes of state memory it is lent.
    pub memory: u64,
    pub capacity: u64,
    /// In milliseconds.
    pub timeout: u64,
    /// 0 is microseconds, any other number finer.
    pub resolution: u64,
}

impl Opening {
    /// "State memory is 256 + 640 × capacity bytes."
    pub fn with_enough_memory(capacity: u64, timeout: u64, resolution: u64) -> Self {
        Opening {
            memory: 256 + 640 * capacity,
            capacity,
            timeout,
            resolution,
        }
    }
}

/// What a call answers. A sweep and a drain have no packets, batch bytes or opened flows.
#[derive(Debug, Clone, Copy, PartialEq, Eq, Default)]
pub struct Answer {
    /// The refusal's number, 0 for none.
    pub refusal: u64,
    pub packets_taken: u64,
    pub batch_bytes_used: u64,
    pub flows_opened: u64,
    pub records_written: u64,
    /// How many bytes of the output these records fill, from its beginning.
    pub output_bytes: u64,
}

impl Answer {
    pub fn refused(refusal: u64) -> Self {
        Answer {
            refusal,
            ..Answer::default()
        }
    }
}

/// An engine over document 01's byte forms: packet forms in, record forms out.
pub trait Engine {
    fn name(&self) -> &'static str;

    /// Whether the records of one call are in document 01's order. If not, they are compared as a set.
    fn keeps_order(&self) -> bool;

    /// Begins anew, whatever was before. Answers the refusal's number, 0 for none.
    fn open(&mut self, opening: &Opening) -> u64;

    fn feed(&mut self, batch: &[u8], output: &mut [u8]) -> Answer;

    /// The time is in nanoseconds.
    fn sweep(&mut self, time: u64, output: &mut [u8]) -> Answer;

    fn drain(&mut self, output: &mut [u8]) -> Answer;
}
