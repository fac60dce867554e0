//! A record that a host holds of its own.

use crate::face::{self, RecordNumbers};
use crate::key::Key;
use crate::packet::Facts;
use crate::record::{Counts, EndReason, Record};
use crate::refusal::{unless_refused, Refusal};
use crate::time::Resolution;

/// A packet's direction, as a host names it.
#[derive(Debug, Clone, Copy, PartialEq, Eq, Hash, PartialOrd, Ord)]
pub enum Direction {
    /// The direction of the record's first packet.
    Forward = 0,
    /// The other one.
    Reverse = 1,
}

/// A record outside any engine, on which a host counts packets directly: that they belong there is the host's to know.
///
/// ```
/// use braidpuddle::{Direction, Facts, HostRecord, Nanos, Resolution, TcpFlags};
///
/// let packet = |time, octets, flags| Facts {
///     time: Nanos(time),
///     frame_octets: octets,
///     captured_octets: octets,
///     flags: Some(flags),
///     ..Facts::default()
/// };
/// let mut record = HostRecord::begin(&packet(10, 60, TcpFlags::SYN), 6, Resolution::Finer)?;
/// record.count(Direction::Reverse, &packet(25, 60, TcpFlags::SYN | TcpFlags::ACK))?;
/// let counts = record.counts();
/// assert_eq!((counts.start, counts.end), (Nanos(10), Nanos(25)));
/// assert_eq!((counts.forward.packets, counts.reverse.packets), (1, 1));
/// assert_eq!((counts.reverse.flags.syn, counts.reverse.flags.ack), (1, 1));
/// # Ok::<(), braidpuddle::Refusal>(())
/// ```
#[derive(Debug, Clone, Copy, PartialEq, Eq, Hash)]
pub struct HostRecord {
    numbers: RecordNumbers,
}

impl HostRecord {
    /// Begins a record with its first packet, counted forward.
    ///
    /// Refused with [`Refusal::Packet`] where a field of the packet is out of range.
    pub fn begin(
        packet: &Facts,
        protocol: u8,
        resolution: Resolution,
    ) -> Result<HostRecord, Refusal> {
        let (refusal, numbers) =
            face::begin(&packet.numbers(), protocol.into(), resolution.number());
        unless_refused(refusal, HostRecord { numbers })
    }

    /// Counts a packet in a direction.
    ///
    /// Refused, in this order, with [`Refusal::Damaged`] where the record is not sound, [`Refusal::Packet`] where a field of the packet
    /// is out of range, [`Refusal::Spent`] where a count would pass 64 bits. The record then stays as it was.
    pub fn count(&mut self, direction: Direction, packet: &Facts) -> Result<(), Refusal> {
        let refusal = face::count(&mut self.numbers, direction as u64, &packet.numbers());
        unless_refused(refusal, ())
    }

    /// What the packets add up to so far.
    pub fn counts(&self) -> Counts {
        Counts::from_numbers(&self.numbers)
    }

    /// The finished record.
    pub fn close(&self, key: Key, reason: EndReason) -> Record {
        Record {
            key,
            reason,
            counts: self.counts(),
        }
    }
}

/// Goes on with counts from elsewhere. Whether they are sound is judged when a packet is counted.
impl From<Counts> for HostRecord {
    fn from(counts: Counts) -> HostRecord {
        HostRecord {
            numbers: counts.numbers(),
        }
    }
}
