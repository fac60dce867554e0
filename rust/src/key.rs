//! What identifies a flow, and its form.

use std::net::{IpAddr, Ipv4Addr, Ipv6Addr};

use crate::face;
use crate::number::{in_range, optional_from, optional_number};
use crate::refusal::{unless_refused, Refusal};

/// The most bytes that a key form takes.
pub const KEY_MOST: usize = 72;

/// An IPv4 or IPv6 address.
pub type Address = IpAddr;

/// What tells a flow's two ends apart, besides their addresses.
#[derive(Debug, Clone, Copy, PartialEq, Eq, Hash, PartialOrd, Ord, Default)]
pub enum Endpoints {
    /// ARP, ICMP, and whatever else has none.
    #[default]
    None,
    /// TCP, UDP and SCTP.
    Ports {
        /// The port on the source's side.
        source: u16,
        /// The port on the destination's side.
        destination: u16,
    },
    /// An IPsec security association by its SPI. It is one-way: each direction is a flow of its own.
    SecurityAssociation(u32),
    /// A GRE tunnel by the protocol that it carries.
    GreProtocol(u16),
}

/// A link-layer address.
#[derive(Debug, Clone, Copy, PartialEq, Eq, Hash, PartialOrd, Ord, Default)]
pub struct MacAddress(pub [u8; 6]);

/// The VLAN tags of a frame, the outer one first.
#[derive(Debug, Clone, Copy, PartialEq, Eq, Hash, PartialOrd, Ord, Default)]
pub enum VlanTags {
    /// No tag.
    #[default]
    Untagged,
    /// One tag.
    Single(u16),
    /// Two tags.
    Double(u16, u16),
}

/// The tunnel that carries a flow.
#[derive(Debug, Clone, Copy, PartialEq, Eq, Hash, PartialOrd, Ord)]
pub struct Encapsulation {
    /// The kind's number: one of the constants below, or any other.
    pub kind: u8,
    /// What tells the tunnel from another of its kind. No id is not the same as id 0.
    pub id: Option<u32>,
}

impl Encapsulation {
    /// VXLAN.
    pub const VXLAN: u8 = 0;
    /// Geneve.
    pub const GENEVE: u8 = 1;
    /// GRE.
    pub const GRE: u8 = 2;
    /// MPLS.
    pub const MPLS: u8 = 3;
    /// PPPoE.
    pub const PPPOE: u8 = 4;
    /// IP directly in IP.
    pub const IP_IN_IP: u8 = 5;
    /// Another tunnel.
    pub const OTHER: u8 = 6;
}

/// What identifies a flow. Every value has a form.
///
/// ```
/// use braidpuddle::{Endpoints, Key};
///
/// let there = Key::new(
///     6,
///     "10.0.0.1".parse().unwrap(),
///     "10.0.0.2".parse().unwrap(),
///     Endpoints::Ports { source: 40000, destination: 443 },
/// );
/// let back = there.reversed();
/// assert_eq!(back.source, there.destination);
/// assert_eq!(back.endpoints, Endpoints::Ports { source: 443, destination: 40000 });
/// assert_eq!(there.shard(16), back.shard(16));
/// assert_eq!(there.protocol_name(), "tcp");
/// assert_eq!(there.ip_version(), Some(4));
/// ```
///
/// Keys are ordered by their fields, which is not the order of key bytes in which sweeps and drains write.
#[derive(Debug, Clone, Copy, PartialEq, Eq, Hash, PartialOrd, Ord)]
pub struct Key {
    /// The IP protocol's number, or 0 for traffic that has none.
    pub protocol: u8,
    /// The EtherType, for traffic that is not IP.
    pub ethertype: Option<u16>,
    /// Ports, or what stands in their place.
    pub endpoints: Endpoints,
    /// In a packet its sender's address; in a record that of the sender of the packet which opened the flow.
    pub source: Address,
    /// The other end's address.
    pub destination: Address,
    /// The source's link-layer address; zero where flows are not told apart by it.
    pub source_mac: MacAddress,
    /// The destination's link-layer address.
    pub destination_mac: MacAddress,
    /// The VLAN that the flow was met on.
    pub vlan: VlanTags,
    /// The tunnel that the flow was met in.
    pub encapsulation: Option<Encapsulation>,
}

impl Key {
    /// A key of IP traffic with no link-layer addresses, VLAN tags or tunnel.
    ///
    /// ```
    /// use braidpuddle::{Endpoints, Key, VlanTags};
    ///
    /// let ping = Key::new(1, "192.0.2.1".parse().unwrap(), "192.0.2.9".parse().unwrap(), Endpoints::None);
    /// let tagged = Key { vlan: VlanTags::Single(12), ..ping };
    /// assert_ne!(ping, tagged);
    /// ```
    pub fn new(protocol: u8, source: Address, destination: Address, endpoints: Endpoints) -> Key {
        Key {
            protocol,
            ethertype: None,
            endpoints,
            source,
            destination,
            source_mac: MacAddress::default(),
            destination_mac: MacAddress::default(),
            vlan: VlanTags::Untagged,
            encapsulation: None,
        }
    }

    /// Writes the key form behind what `out` holds: the bytes that it took. Every key has a form, so it is never refused.
    ///
    /// ```
    /// # use braidpuddle::{Endpoints, Key};
    /// # let key = Key::new(6, "10.0.0.1".parse().unwrap(), "10.0.0.2".parse().unwrap(), Endpoints::None);
    /// let mut bytes = Vec::new();
    /// let length = key.encode(&mut bytes).unwrap();
    /// assert_eq!(Key::decode(&bytes), Ok((key, length)));
    /// ```
    pub fn encode(&self, out: &mut Vec<u8>) -> Result<usize, Refusal> {
        let form = self.form();
        if face::ip_version(form.bytes()) == NO_KEY {
            return Err(Refusal::Packet);
        }
        out.extend_from_slice(form.bytes());
        Ok(form.length)
    }

    /// Reads the key that the bytes begin with, and how many of them it took.
    ///
    /// Refused with [`Refusal::Packet`] where no key form begins the bytes, and with [`Refusal::Short`] where they stop in the middle
    /// of one.
    ///
    /// ```
    /// use braidpuddle::{Key, Refusal};
    ///
    /// assert_eq!(Key::decode(&[6, 0, 4]), Err(Refusal::Packet));
    /// assert_eq!(Key::decode(&[6, 0, 1]), Err(Refusal::Short));
    /// ```
    pub fn decode(bytes: &[u8]) -> Result<(Key, usize), Refusal> {
        if bytes.is_empty() {
            return Err(Refusal::Packet);
        }
        let length = key_length(bytes)?;
        Ok((Key::from_form(&bytes[..length]), length))
    }

    /// The same conversation seen from the other side: addresses, ports and MACs change over, all else stays.
    #[must_use]
    pub fn reversed(&self) -> Key {
        self.changed_by(face::reversed)
    }

    /// The key with both MACs zero, for those who do not tell flows apart by link addresses.
    ///
    /// ```
    /// # use braidpuddle::{Endpoints, Key, MacAddress};
    /// # let key = Key::new(6, "10.0.0.1".parse().unwrap(), "10.0.0.2".parse().unwrap(), Endpoints::None);
    /// let seen = Key { source_mac: MacAddress([2, 0, 0, 0, 0, 1]), ..key };
    /// assert_eq!(seen.forget_link_addresses(), key);
    /// ```
    #[must_use]
    pub fn forget_link_addresses(&self) -> Key {
        self.changed_by(face::forget_link_addresses)
    }

    /// Which of so many workers the flow belongs to, the same one for a key and its reverse: below `shards`, and 0 where that is 0.
    pub fn shard(&self, shards: u64) -> u64 {
        face::shard(self.form().bytes(), shards)
    }

    /// The protocol's name, empty where it has none.
    pub fn protocol_name(&self) -> &'static str {
        let number = face::protocol_name(self.form().bytes());
        PROTOCOL_NAMES[number as usize]
    }

    /// 4 or 6, or `None` for traffic that is not IP.
    pub fn ip_version(&self) -> Option<u8> {
        match face::ip_version(self.form().bytes()) {
            0 => None,
            version => Some(in_range(version)),
        }
    }

    fn changed_by(&self, change: fn(&[u8], &mut [u8]) -> (u64, u64)) -> Key {
        let mut out = [0; KEY_MOST];
        let (refusal, written) = change(self.form().bytes(), &mut out);
        assert_eq!(refusal, 0, "every key has a form, and room for it");
        Key::from_form(&out[..written as usize])
    }

    /// The key form, written from document 01, "Byte forms".
    pub(crate) fn form(&self) -> KeyForm {
        let mut form = KeyForm::default();
        form.number(self.protocol);
        form.optional(self.ethertype);
        form.endpoints(self.endpoints);
        form.address(self.source);
        form.address(self.destination);
        form.raw(&self.source_mac.0);
        form.raw(&self.destination_mac.0);
        form.vlan(self.vlan);
        form.encapsulation(self.encapsulation);
        form
    }

    /// The key of a form that the library has judged.
    pub(crate) fn from_form(form: &[u8]) -> Key {
        let mut parts = Parts { rest: form };
        Key {
            protocol: parts.number(),
            ethertype: parts.optional(),
            endpoints: parts.endpoints(),
            source: parts.address(),
            destination: parts.address(),
            source_mac: MacAddress(parts.raw()),
            destination_mac: MacAddress(parts.raw()),
            vlan: parts.vlan(),
            encapsulation: parts.encapsulation(),
        }
    }
}

/// What the library answers of bytes that are no key form.
const NO_KEY: u64 = u64::MAX;

/// The names by the library's numbers.
const PROTOCOL_NAMES: [&str; 14] = [
    "", "arp", "icmp", "igmp", "tcp", "udp", "ipv6", "gre", "esp", "ah", "icmpv6", "ospf", "vrrp",
    "sctp",
];

/// Eight fields of a packet, each one byte of 0: in front of a key form they make a packet form.
const PLAINEST_FACTS: usize = 8;

/// How many bytes the key takes that these begin with. The library judges it as a packet's key.
fn key_length(bytes: &[u8]) -> Result<usize, Refusal> {
    let key = &bytes[..bytes.len().min(KEY_MOST)];
    let mut packet = [0; PLAINEST_FACTS + KEY_MOST];
    let end = PLAINEST_FACTS + key.len();
    packet[PLAINEST_FACTS..end].copy_from_slice(key);
    let (refusal, _, [begins, ends]) = face::read_packet(&packet[..end]);
    unless_refused(refusal, (ends - begins) as usize)
}

/// A key form as it is written.
pub(crate) struct KeyForm {
    bytes: [u8; KEY_MOST],
    length: usize,
}

impl Default for KeyForm {
    fn default() -> KeyForm {
        KeyForm {
            bytes: [0; KEY_MOST],
            length: 0,
        }
    }
}

impl KeyForm {
    pub(crate) fn bytes(&self) -> &[u8] {
        &self.bytes[..self.length]
    }

    fn number(&mut self, value: impl Into<u64>) {
        let room = &mut self.bytes[self.length..];
        let (refusal, written) = face::write_number(room, value.into(), u64::MAX);
        assert_eq!(refusal, 0, "a key form has room for all its numbers");
        self.length += written as usize;
    }

    fn optional(&mut self, value: Option<impl Into<u64>>) {
        self.number(optional_number(value));
    }

    fn raw(&mut self, bytes: &[u8]) {
        let end = self.length + bytes.len();
        self.bytes[self.length..end].copy_from_slice(bytes);
        self.length = end;
    }

    fn endpoints(&mut self, endpoints: Endpoints) {
        match endpoints {
            Endpoints::None => self.number(0u8),
            Endpoints::Ports {
                source,
                destination,
            } => {
                self.number(1u8);
                self.number(source);
                self.number(destination);
            }
            Endpoints::SecurityAssociation(spi) => {
                self.number(2u8);
                self.number(spi);
            }
            Endpoints::GreProtocol(protocol) => {
                self.number(3u8);
                self.number(protocol);
            }
        }
    }

    fn address(&mut self, address: Address) {
        match address {
            IpAddr::V4(v4) => {
                self.number(4u8);
                self.raw(&v4.octets());
            }
            IpAddr::V6(v6) => {
                self.number(6u8);
                self.raw(&v6.octets());
            }
        }
    }

    fn vlan(&mut self, tags: VlanTags) {
        match tags {
            VlanTags::Untagged => self.number(0u8),
            VlanTags::Single(tag) => {
                self.number(1u8);
                self.number(tag);
            }
            VlanTags::Double(outer, inner) => {
                self.number(2u8);
                self.number(outer);
                self.number(inner);
            }
        }
    }

    fn encapsulation(&mut self, encapsulation: Option<Encapsulation>) {
        self.optional(encapsulation.map(|tunnel| tunnel.kind));
        if let Some(tunnel) = encapsulation {
            self.optional(tunnel.id);
        }
    }
}

/// What is left of a judged key form as its parts are taken.
struct Parts<'a> {
    rest: &'a [u8],
}

impl Parts<'_> {
    fn number<T: TryFrom<u64>>(&mut self) -> T {
        let (refusal, [value, used]) = face::read_number(self.rest, u64::MAX);
        assert_eq!(
            refusal, 0,
            "the library judges a form before it is taken apart"
        );
        self.rest = &self.rest[used as usize..];
        in_range(value)
    }

    fn optional<T: TryFrom<u64>>(&mut self) -> Option<T> {
        optional_from(self.number())
    }

    fn raw<const N: usize>(&mut self) -> [u8; N] {
        let (raw, rest) = self.rest.split_at(N);
        self.rest = rest;
        let mut bytes = [0; N];
        bytes.copy_from_slice(raw);
        bytes
    }

    fn endpoints(&mut self) -> Endpoints {
        match self.number::<u8>() {
            0 => Endpoints::None,
            1 => Endpoints::Ports {
                source: self.number(),
                destination: self.number(),
            },
            2 => Endpoints::SecurityAssociation(self.number()),
            _ => Endpoints::GreProtocol(self.number()),
        }
    }

    fn address(&mut self) -> Address {
        match self.number::<u8>() {
            4 => IpAddr::V4(Ipv4Addr::from(self.raw::<4>())),
            _ => IpAddr::V6(Ipv6Addr::from(self.raw::<16>())),
        }
    }

    fn vlan(&mut self) -> VlanTags {
        match self.number::<u8>() {
            0 => VlanTags::Untagged,
            1 => VlanTags::Single(self.number()),
            _ => VlanTags::Double(self.number(), self.number()),
        }
    }

    fn encapsulation(&mut self) -> Option<Encapsulation> {
        let kind = self.optional()?;
        Some(Encapsulation {
            kind,
            id: self.optional(),
        })
    }
}
