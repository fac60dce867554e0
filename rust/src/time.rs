//! The two kinds of time, kept apart, and a record's resolution.

/// Milliseconds: what a timeout is given in.
#[derive(Debug, Clone, Copy, PartialEq, Eq, Hash, PartialOrd, Ord, Default)]
pub struct Millis(pub u64);

/// Nanoseconds: what packets, records and the clock have.
#[derive(Debug, Clone, Copy, PartialEq, Eq, Hash, PartialOrd, Ord, Default)]
pub struct Nanos(pub u64);

/// How finely a record's times were taken. It is noted in each record and changes nothing else.
#[derive(Debug, Clone, Copy, PartialEq, Eq, Hash, PartialOrd, Ord)]
pub enum Resolution {
    /// Microseconds.
    Microseconds = 0,
    /// Finer than microseconds.
    Finer = 1,
}

impl Resolution {
    pub(crate) fn number(self) -> u64 {
        self as u64
    }

    pub(crate) fn from_number(number: u64) -> Resolution {
        match number {
            0 => Resolution::Microseconds,
            _ => Resolution::Finer,
        }
    }
}
