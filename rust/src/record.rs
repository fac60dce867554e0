//! A flow's record, and its form.

use std::fmt;

use crate::face::{self, RecordNumbers};
use crate::key::Key;
use crate::number::{optional_from, optional_number};
use crate::packet::Icmp;
use crate::refusal::{unless_refused, Refusal};
use crate::time::{Nanos, Resolution};

/// The most bytes that a record form takes.
pub const RECORD_MOST: usize = 358;

/// Why a flow ended.
///
/// ```
/// # use braidpuddle::EndReason;
/// assert_eq!(EndReason::CaptureEnd.name(), "CaptureEnd");
/// ```
#[derive(Debug, Clone, Copy, PartialEq, Eq, Hash, PartialOrd, Ord)]
pub enum EndReason {
    /// The flow was due: no packet for the timeout, and the lesser of one second and half the timeout more.
    IdleTimeout = 0,
    /// FIN was seen both ways, and a packet more without RST, a SYN, a sweep or a drain ended the flow.
    Fin = 1,
    /// One side reset the connection.
    Rst = 2,
    /// The capture ended.
    CaptureEnd = 3,
}

impl EndReason {
    /// Document 01's name.
    pub const fn name(self) -> &'static str {
        match self {
            EndReason::IdleTimeout => "IdleTimeout",
            EndReason::Fin => "Fin",
            EndReason::Rst => "Rst",
            EndReason::CaptureEnd => "CaptureEnd",
        }
    }

    fn from_number(number: u64) -> EndReason {
        match number {
            0 => EndReason::IdleTimeout,
            1 => EndReason::Fin,
            2 => EndReason::Rst,
            _ => EndReason::CaptureEnd,
        }
    }
}

/// How a flow's beginning was met.
#[derive(Debug, Clone, Copy, PartialEq, Eq, Hash, PartialOrd, Ord)]
pub enum StartState {
    /// With the SYN that opened it.
    SynObserved = 0,
    /// With TCP traffic that was already under way.
    MidStream = 1,
    /// It is not TCP.
    NotApplicable = 2,
}

impl StartState {
    fn from_number(number: u64) -> StartState {
        match number {
            0 => StartState::SynObserved,
            1 => StartState::MidStream,
            _ => StartState::NotApplicable,
        }
    }
}

/// The least and the greatest of something.
#[derive(Debug, Clone, Copy, PartialEq, Eq, Hash, PartialOrd, Ord)]
pub struct Bounds<T> {
    /// The least.
    pub least: T,
    /// The greatest.
    pub greatest: T,
}

impl<T: Into<u64> + TryFrom<u64> + Copy> Bounds<T> {
    fn numbers(bounds: Option<Bounds<T>>) -> [u64; 2] {
        [
            optional_number(bounds.map(|bounds| bounds.least)),
            optional_number(bounds.map(|bounds| bounds.greatest)),
        ]
    }

    fn from_numbers(least: u64, greatest: u64) -> Option<Bounds<T>> {
        Some(Bounds {
            least: optional_from(least)?,
            greatest: optional_from(greatest)?,
        })
    }
}

/// How many packets of a direction had each TCP flag.
#[derive(Debug, Clone, Copy, PartialEq, Eq, Hash, Default)]
pub struct FlagCounts {
    /// The sender is done.
    pub fin: u64,
    /// A connection is opened.
    pub syn: u64,
    /// The connection is reset.
    pub rst: u64,
    /// Push.
    pub psh: u64,
    /// Acknowledgement.
    pub ack: u64,
    /// Urgent.
    pub urg: u64,
    /// ECN echo.
    pub ece: u64,
    /// Congestion window reduced.
    pub cwr: u64,
    /// Nonce sum.
    pub ns: u64,
}

/// What one direction of a flow adds up to.
#[derive(Debug, Clone, Copy, PartialEq, Eq, Hash, Default)]
pub struct DirectionCounts {
    /// Packets.
    pub packets: u64,
    /// The sum of their frames' lengths.
    pub frame_octets: u64,
    /// The least and the greatest frame length; absent exactly where there is no packet.
    pub length: Option<Bounds<u32>>,
    /// The packets with each TCP flag.
    pub flags: FlagCounts,
}

/// How many numbers a direction has.
const DIRECTION_NUMBERS: usize = 13;

impl DirectionCounts {
    fn numbers(&self) -> [u64; DIRECTION_NUMBERS] {
        let [least, greatest] = Bounds::numbers(self.length);
        let flags = &self.flags;
        [
            self.packets,
            self.frame_octets,
            least,
            greatest,
            flags.fin,
            flags.syn,
            flags.rst,
            flags.psh,
            flags.ack,
            flags.urg,
            flags.ece,
            flags.cwr,
            flags.ns,
        ]
    }

    fn from_numbers(numbers: &[u64]) -> DirectionCounts {
        DirectionCounts {
            packets: numbers[0],
            frame_octets: numbers[1],
            length: Bounds::from_numbers(numbers[2], numbers[3]),
            flags: FlagCounts {
                fin: numbers[4],
                syn: numbers[5],
                rst: numbers[6],
                psh: numbers[7],
                ack: numbers[8],
                urg: numbers[9],
                ece: numbers[10],
                cwr: numbers[11],
                ns: numbers[12],
            },
        }
    }
}

/// What a flow's packets add up to: a record without its key and its end reason.
#[derive(Debug, Clone, Copy, PartialEq, Eq, Hash)]
pub struct Counts {
    /// The earliest packet's time.
    pub start: Nanos,
    /// The latest packet's time.
    pub end: Nanos,
    /// How the beginning was met.
    pub start_state: StartState,
    /// How finely the times were taken.
    pub resolution: Resolution,
    /// The least and the greatest TTL.
    pub ttl: Option<Bounds<u8>>,
    /// The first packet's DSCP.
    pub dscp: Option<u8>,
    /// The first packet's ECN bits.
    pub ecn: Option<u8>,
    /// The first ICMP type and code that a packet had.
    pub icmp: Option<Icmp>,
    /// The captured octets of both directions.
    pub captured_octets: u64,
    /// Whether some frame was captured in part only.
    pub truncated: bool,
    /// The direction of the packet that opened the flow.
    pub forward: DirectionCounts,
    /// The other direction.
    pub reverse: DirectionCounts,
}

/// How many numbers belong to no direction.
const SHARED_NUMBERS: usize = 11;

/// Where the reverse direction's numbers begin.
const REVERSE_NUMBERS: usize = SHARED_NUMBERS + DIRECTION_NUMBERS;

impl Counts {
    pub(crate) fn numbers(&self) -> RecordNumbers {
        let mut numbers = [0; REVERSE_NUMBERS + DIRECTION_NUMBERS];
        numbers[..SHARED_NUMBERS].copy_from_slice(&self.shared_numbers());
        numbers[SHARED_NUMBERS..REVERSE_NUMBERS].copy_from_slice(&self.forward.numbers());
        numbers[REVERSE_NUMBERS..].copy_from_slice(&self.reverse.numbers());
        numbers
    }

    fn shared_numbers(&self) -> [u64; SHARED_NUMBERS] {
        let [ttl_least, ttl_greatest] = Bounds::numbers(self.ttl);
        [
            self.start.0,
            self.end.0,
            self.start_state as u64,
            self.resolution.number(),
            ttl_least,
            ttl_greatest,
            optional_number(self.dscp),
            optional_number(self.ecn),
            optional_number(self.icmp.map(Icmp::number)),
            self.captured_octets,
            self.truncated.into(),
        ]
    }

    pub(crate) fn from_numbers(numbers: &RecordNumbers) -> Counts {
        Counts {
            start: Nanos(numbers[0]),
            end: Nanos(numbers[1]),
            start_state: StartState::from_number(numbers[2]),
            resolution: Resolution::from_number(numbers[3]),
            ttl: Bounds::from_numbers(numbers[4], numbers[5]),
            dscp: optional_from(numbers[6]),
            ecn: optional_from(numbers[7]),
            icmp: optional_from(numbers[8]).map(Icmp::from_number),
            captured_octets: numbers[9],
            truncated: numbers[10] == 1,
            forward: DirectionCounts::from_numbers(&numbers[SHARED_NUMBERS..REVERSE_NUMBERS]),
            reverse: DirectionCounts::from_numbers(&numbers[REVERSE_NUMBERS..]),
        }
    }
}

/// A finished flow: its key, why it ended, and what its packets add up to.
///
/// It is displayed as the line that `replay` prints: reason, start, end, forward and reverse packets, forward and reverse octets.
///
/// ```
/// use braidpuddle::{Endpoints, EndReason, Facts, HostRecord, Key, Nanos, Record, Resolution};
///
/// let facts = Facts { time: Nanos(5), frame_octets: 80, captured_octets: 80, ..Facts::default() };
/// let key = Key::new(17, "10.0.0.1".parse().unwrap(), "10.0.0.2".parse().unwrap(), Endpoints::None);
/// let record = HostRecord::begin(&facts, key.protocol, Resolution::Finer).unwrap().close(key, EndReason::CaptureEnd);
/// assert_eq!(record.to_string(), "CaptureEnd 5 5 1 0 80 0");
///
/// let mut bytes = Vec::new();
/// let length = record.encode(&mut bytes).unwrap();
/// assert_eq!(Record::decode(&bytes), Ok((record, length)));
/// ```
#[derive(Debug, Clone, Copy, PartialEq, Eq, Hash)]
pub struct Record {
    /// What identifies the flow, as seen from the sender of the packet that opened it.
    pub key: Key,
    /// Why it ended.
    pub reason: EndReason,
    /// What its packets add up to.
    pub counts: Counts,
}

impl Record {
    /// Writes the record form behind what `out` holds: the bytes that it took.
    ///
    /// Refused with [`Refusal::Damaged`] where the record is not sound; `out` stays as it was.
    ///
    /// ```
    /// # use braidpuddle::{Endpoints, EndReason, Facts, HostRecord, Key, Nanos, Refusal, Resolution};
    /// # let key = Key::new(17, "10.0.0.1".parse().unwrap(), "10.0.0.2".parse().unwrap(), Endpoints::None);
    /// let begun = HostRecord::begin(&Facts::default(), 17, Resolution::Finer)?;
    /// let mut record = begun.close(key, EndReason::CaptureEnd);
    /// assert!(record.encode(&mut Vec::new()).is_ok());
    /// record.counts.start = Nanos(1); // behind its end
    /// assert_eq!(record.encode(&mut Vec::new()), Err(Refusal::Damaged));
    /// # Ok::<(), Refusal>(())
    /// ```
    pub fn encode(&self, out: &mut Vec<u8>) -> Result<usize, Refusal> {
        let mut form = [0; RECORD_MOST];
        let key = self.key.form();
        let numbers = self.counts.numbers();
        let (refusal, written) =
            face::write_record(&mut form, &numbers, self.reason as u64, key.bytes());
        let form = unless_refused(refusal, &form[..written as usize])?;
        out.extend_from_slice(form);
        Ok(form.len())
    }

    /// Reads the record that the bytes begin with, and how many of them it took.
    ///
    /// Refused with [`Refusal::Record`] where no record form begins the bytes, and with [`Refusal::Short`] where they stop in the
    /// middle of one.
    pub fn decode(bytes: &[u8]) -> Result<(Record, usize), Refusal> {
        let (refusal, numbers, [key, end, reason]) = face::read_record(bytes);
        unless_refused(refusal, ())?;
        let end = end as usize;
        let record = Record {
            key: Key::from_form(&bytes[key as usize..end]),
            reason: EndReason::from_number(reason),
            counts: Counts::from_numbers(&numbers),
        };
        Ok((record, end))
    }
}

impl fmt::Display for Record {
    fn fmt(&self, f: &mut fmt::Formatter<'_>) -> fmt::Result {
        let counts = &self.counts;
        write!(
            f,
            "{} {} {} {} {} {} {}",
            self.reason.name(),
            counts.start.0,
            counts.end.0,
            counts.forward.packets,
            counts.reverse.packets,
            counts.forward.frame_octets,
            counts.reverse.frame_octets
        )
    }
}

/// The records of the bytes that a call filled, in order. Of such bytes every item is a record; where others are cut or spoilt, the
/// last item is the refusal.
///
/// ```
/// use braidpuddle::{Records, Refusal};
///
/// assert_eq!(Records::new(&[]).next(), None);
/// assert_eq!(Records::new(&[2]).next(), Some(Err(Refusal::Record)));
/// ```
#[derive(Debug, Clone)]
pub struct Records<'a> {
    rest: &'a [u8],
    stopped: bool,
}

impl<'a> Records<'a> {
    /// The records of these bytes.
    pub fn new(filled: &'a [u8]) -> Records<'a> {
        Records {
            rest: filled,
            stopped: false,
        }
    }

    /// The bytes that are not read yet.
    pub fn rest(&self) -> &'a [u8] {
        self.rest
    }
}

impl Iterator for Records<'_> {
    type Item = Result<Record, Refusal>;

    fn next(&mut self) -> Option<Self::Item> {
        if self.stopped || self.rest.is_empty() {
            return None;
        }
        let read = Record::decode(self.rest);
        match read {
            Ok((_, used)) => self.rest = &self.rest[used..],
            Err(_) => self.stopped = true,
        }
        Some(read.map(|(record, _)| record))
    }
}

impl std::iter::FusedIterator for Records<'_> {}
