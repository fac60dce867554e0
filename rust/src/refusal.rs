//! Why a call or a form is refused.

use std::error::Error;
use std::fmt;

/// Document 01's refusals, with its names and numbers.
///
/// ```
/// use braidpuddle::Refusal;
///
/// assert_eq!(Refusal::Room.number(), 7);
/// assert_eq!(Refusal::from_number(7), Some(Refusal::Room));
/// assert_eq!(Refusal::Short.to_string(), "refused 9, Short: the bytes stop in the middle of a form");
/// ```
#[derive(Debug, Clone, Copy, PartialEq, Eq, Hash, PartialOrd, Ord)]
pub enum Refusal {
    /// Opening with a capacity of 0 or above 4096.
    Capacity = 1,
    /// Opening with too few bytes.
    Memory = 2,
    /// The state, or a host's own record, is not sound; or a record given for writing is not.
    Damaged = 3,
    /// What remains is neither begun by a packet form (or the number read), nor Short; or a packet or number given for writing or
    /// counting has a field out of range.
    Packet = 4,
    /// The packet would open a flow, and as many are open as the capacity allows.
    Full = 5,
    /// The record that takes the packet would pass 2^64 − 1 in packets, octets or captured octets.
    Spent = 6,
    /// The records that are finished need more bytes than the output has left.
    Room = 7,
    /// The bytes neither begin with a record form nor are Short.
    Record = 8,
    /// The bytes are a proper, non-empty beginning of some form of the kind read.
    Short = 9,
}

impl Refusal {
    /// All nine, in order of their numbers.
    pub const ALL: [Refusal; 9] = [
        Refusal::Capacity,
        Refusal::Memory,
        Refusal::Damaged,
        Refusal::Packet,
        Refusal::Full,
        Refusal::Spent,
        Refusal::Room,
        Refusal::Record,
        Refusal::Short,
    ];

    /// Document 01's number.
    pub const fn number(self) -> u64 {
        self as u64
    }

    /// The refusal of a number; `None` for 0, which is no refusal, and for numbers that none has.
    ///
    /// ```
    /// # use braidpuddle::Refusal;
    /// assert_eq!(Refusal::from_number(0), None);
    /// assert_eq!(Refusal::from_number(5), Some(Refusal::Full));
    /// ```
    pub fn from_number(number: u64) -> Option<Refusal> {
        Refusal::ALL
            .into_iter()
            .find(|refusal| refusal.number() == number)
    }

    /// Document 01's name.
    pub const fn name(self) -> &'static str {
        match self {
            Refusal::Capacity => "Capacity",
            Refusal::Memory => "Memory",
            Refusal::Damaged => "Damaged",
            Refusal::Packet => "Packet",
            Refusal::Full => "Full",
            Refusal::Spent => "Spent",
            Refusal::Room => "Room",
            Refusal::Record => "Record",
            Refusal::Short => "Short",
        }
    }

    const fn reason(self) -> &'static str {
        match self {
            Refusal::Capacity => "the capacity is 0 or above 4096",
            Refusal::Memory => "the memory is too small for the capacity",
            Refusal::Damaged => "the state or the record is not sound",
            Refusal::Packet => "not a packet or number form, or a field out of range",
            Refusal::Full => "no flow can be opened, the capacity is reached",
            Refusal::Spent => "a count of the record would pass 64 bits",
            Refusal::Room => "the output has too little room for the records",
            Refusal::Record => "not a record form",
            Refusal::Short => "the bytes stop in the middle of a form",
        }
    }
}

impl fmt::Display for Refusal {
    fn fmt(&self, f: &mut fmt::Formatter<'_>) -> fmt::Result {
        write!(
            f,
            "refused {}, {}: {}",
            self.number(),
            self.name(),
            self.reason()
        )
    }
}

impl Error for Refusal {}

/// The value, or the refusal that the library's number stands for.
pub(crate) fn unless_refused<T>(number: u64, value: T) -> Result<T, Refusal> {
    match Refusal::from_number(number) {
        None => Ok(value),
        Some(refusal) => Err(refusal),
    }
}
