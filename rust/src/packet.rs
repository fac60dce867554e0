//! A packet, and its form.

use std::ops::BitOr;

use crate::face::{self, PacketNumbers};
use crate::key::Key;
use crate::number::{in_range, optional_from, optional_number};
use crate::refusal::{unless_refused, Refusal};
use crate::time::Nanos;

/// The most bytes that a packet form takes.
pub const PACKET_MOST: usize = 103;

/// A mask of TCP flags. A bit above the nine is out of range: a packet with one is refused with [`Refusal::Packet`].
///
/// ```
/// use braidpuddle::TcpFlags;
///
/// let flags = TcpFlags::SYN | TcpFlags::ACK;
/// assert_eq!(flags.0, 0b10010);
/// assert!(flags.has(TcpFlags::SYN) && !flags.has(TcpFlags::FIN));
/// ```
#[derive(Debug, Clone, Copy, PartialEq, Eq, Hash, PartialOrd, Ord, Default)]
pub struct TcpFlags(pub u16);

impl TcpFlags {
    /// The sender is done.
    pub const FIN: TcpFlags = TcpFlags(0x001);
    /// A connection is opened.
    pub const SYN: TcpFlags = TcpFlags(0x002);
    /// The connection is reset.
    pub const RST: TcpFlags = TcpFlags(0x004);
    /// Push.
    pub const PSH: TcpFlags = TcpFlags(0x008);
    /// Acknowledgement.
    pub const ACK: TcpFlags = TcpFlags(0x010);
    /// Urgent.
    pub const URG: TcpFlags = TcpFlags(0x020);
    /// ECN echo.
    pub const ECE: TcpFlags = TcpFlags(0x040);
    /// Congestion window reduced.
    pub const CWR: TcpFlags = TcpFlags(0x080);
    /// Nonce sum.
    pub const NS: TcpFlags = TcpFlags(0x100);

    /// Whether all of the other's flags are set.
    pub const fn has(self, other: TcpFlags) -> bool {
        self.0 & other.0 == other.0
    }
}

impl BitOr for TcpFlags {
    type Output = TcpFlags;

    fn bitor(self, other: TcpFlags) -> TcpFlags {
        TcpFlags(self.0 | other.0)
    }
}

/// An ICMP message's type and code.
#[derive(Debug, Clone, Copy, PartialEq, Eq, Hash, PartialOrd, Ord, Default)]
pub struct Icmp {
    /// The type.
    pub kind: u8,
    /// The code.
    pub code: u8,
}

impl Icmp {
    pub(crate) fn number(self) -> u16 {
        u16::from_be_bytes([self.kind, self.code])
    }

    pub(crate) fn from_number(number: u16) -> Icmp {
        let [kind, code] = number.to_be_bytes();
        Icmp { kind, code }
    }
}

/// What a packet adds to a record.
#[derive(Debug, Clone, Copy, PartialEq, Eq, Hash, Default)]
pub struct Facts {
    /// When the packet was met.
    pub time: Nanos,
    /// The frame's length on the wire.
    pub frame_octets: u32,
    /// How much of it was captured.
    pub captured_octets: u32,
    /// The TTL or hop limit.
    pub ttl: Option<u8>,
    /// The TCP flags.
    pub flags: Option<TcpFlags>,
    /// The ICMP type and code.
    pub icmp: Option<Icmp>,
    /// The DSCP.
    pub dscp: Option<u8>,
    /// The ECN bits.
    pub ecn: Option<u8>,
}

impl Facts {
    pub(crate) fn numbers(&self) -> PacketNumbers {
        [
            self.time.0,
            self.frame_octets.into(),
            self.captured_octets.into(),
            optional_number(self.ttl),
            optional_number(self.flags.map(|flags| flags.0)),
            optional_number(self.icmp.map(Icmp::number)),
            optional_number(self.dscp),
            optional_number(self.ecn),
        ]
    }

    fn from_numbers(numbers: &PacketNumbers) -> Facts {
        let [time, frame, captured, ttl, flags, icmp, dscp, ecn] = *numbers;
        Facts {
            time: Nanos(time),
            frame_octets: in_range(frame),
            captured_octets: in_range(captured),
            ttl: optional_from(ttl),
            flags: optional_from(flags).map(TcpFlags),
            icmp: optional_from(icmp).map(Icmp::from_number),
            dscp: optional_from(dscp),
            ecn: optional_from(ecn),
        }
    }
}

/// A packet: what it adds to a record, and the flow that it names.
///
/// ```
/// use braidpuddle::{Endpoints, Facts, Key, Nanos, Packet, TcpFlags};
///
/// let packet = Packet {
///     facts: Facts {
///         time: Nanos(1_000),
///         frame_octets: 60,
///         captured_octets: 60,
///         flags: Some(TcpFlags::SYN),
///         ..Facts::default()
///     },
///     key: Key::new(
///         6,
///         "10.0.0.1".parse().unwrap(),
///         "10.0.0.2".parse().unwrap(),
///         Endpoints::Ports { source: 40000, destination: 443 },
///     ),
/// };
/// let mut batch = Vec::new();
/// let length = packet.encode(&mut batch).unwrap();
/// assert_eq!(Packet::decode(&batch), Ok((packet, length)));
/// ```
#[derive(Debug, Clone, Copy, PartialEq, Eq, Hash)]
pub struct Packet {
    /// What it adds.
    pub facts: Facts,
    /// The flow that it names, as seen from its sender.
    pub key: Key,
}

impl Packet {
    /// Writes the packet form behind what `out` holds: the bytes that it took.
    ///
    /// Refused with [`Refusal::Packet`] where a field is out of range; `out` stays as it was.
    ///
    /// ```
    /// # use braidpuddle::{Endpoints, Facts, Key, Packet, Refusal, TcpFlags};
    /// # let key = Key::new(6, "10.0.0.1".parse().unwrap(), "10.0.0.2".parse().unwrap(), Endpoints::None);
    /// let facts = Facts { flags: Some(TcpFlags(0x200)), ..Facts::default() };
    /// assert_eq!(Packet { facts, key }.encode(&mut Vec::new()), Err(Refusal::Packet));
    /// ```
    pub fn encode(&self, out: &mut Vec<u8>) -> Result<usize, Refusal> {
        let mut form = [0; PACKET_MOST];
        let key = self.key.form();
        let (refusal, written) = face::write_packet(&mut form, &self.facts.numbers(), key.bytes());
        let form = unless_refused(refusal, &form[..written as usize])?;
        out.extend_from_slice(form);
        Ok(form.len())
    }

    /// Reads the packet that the bytes begin with, and how many of them it took.
    ///
    /// Refused with [`Refusal::Packet`] where no packet form begins the bytes, and with [`Refusal::Short`] where they stop in the
    /// middle of one.
    ///
    /// ```
    /// # use braidpuddle::{Packet, Refusal};
    /// assert_eq!(Packet::decode(&[]), Err(Refusal::Packet));
    /// assert_eq!(Packet::decode(&[0x80]), Err(Refusal::Short));
    /// ```
    pub fn decode(bytes: &[u8]) -> Result<(Packet, usize), Refusal> {
        let (refusal, numbers, [key, end]) = face::read_packet(bytes);
        unless_refused(refusal, ())?;
        let end = end as usize;
        let packet = Packet {
            facts: Facts::from_numbers(&numbers),
            key: Key::from_form(&bytes[key as usize..end]),
        };
        Ok((packet, end))
    }
}

/// The packets of a batch, in order. Where the batch is cut or spoilt, the last item is the refusal.
///
/// ```
/// use braidpuddle::{Packets, Refusal};
///
/// let mut packets = Packets::new(&[0, 60]);
/// assert_eq!(packets.next(), Some(Err(Refusal::Short)));
/// assert_eq!(packets.next(), None);
/// assert_eq!(packets.rest(), [0, 60]);
/// ```
#[derive(Debug, Clone)]
pub struct Packets<'a> {
    rest: &'a [u8],
    stopped: bool,
}

impl<'a> Packets<'a> {
    /// The packets of these bytes.
    pub fn new(batch: &'a [u8]) -> Packets<'a> {
        Packets {
            rest: batch,
            stopped: false,
        }
    }

    /// The bytes that are not read yet.
    pub fn rest(&self) -> &'a [u8] {
        self.rest
    }
}

impl Iterator for Packets<'_> {
    type Item = Result<Packet, Refusal>;

    fn next(&mut self) -> Option<Self::Item> {
        if self.stopped || self.rest.is_empty() {
            return None;
        }
        let read = Packet::decode(self.rest);
        match read {
            Ok((_, used)) => self.rest = &self.rest[used..],
            Err(_) => self.stopped = true,
        }
        Some(read.map(|(packet, _)| packet))
    }
}

impl std::iter::FusedIterator for Packets<'_> {}
