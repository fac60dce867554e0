//! Reads a packet form into what the Rust's engine takes.
//!
//! It reads what is a packet form, and does not judge what is none: `model` does that.

use std::net::IpAddr;

use crate::flow::{
    EncapKind, Encapsulation, Endpoints, FlowKey, MacAddress, PacketFacts, TcpFlags, Timestamp,
    VlanTags,
};
use crate::net::parser::PacketObservation;

/// What is left to read.
struct Bytes<'a>(&'a [u8]);

impl Bytes<'_> {
    fn byte(&mut self) -> Option<u8> {
        let (first, rest) = self.0.split_first()?;
        self.0 = rest;
        Some(*first)
    }

    fn number(&mut self) -> Option<u64> {
        let mut byte = self.byte()?;
        let mut value = u64::from(byte & 0x7F);
        let mut shift = 7;
        while byte & 0x80 != 0 {
            byte = self.byte()?;
            value |= u64::from(byte & 0x7F).checked_shl(shift)?;
            shift += 7;
        }
        Some(value)
    }

    fn narrow<T: TryFrom<u64>>(&mut self) -> Option<T> {
        self.number()?.try_into().ok()
    }

    /// 0 where it is absent, else the value plus 1. The outer answer is none where it is not read.
    fn optional<T: TryFrom<u64>>(&mut self) -> Option<Option<T>> {
        match self.number()? {
            0 => Some(None),
            more => Some(Some((more - 1).try_into().ok()?)),
        }
    }

    fn raw<const N: usize>(&mut self) -> Option<[u8; N]> {
        let (first, rest) = self.0.split_first_chunk()?;
        self.0 = rest;
        Some(*first)
    }
}

/// The packet that begins the bytes, and the bytes behind it.
pub fn observation(bytes: &[u8]) -> Option<(PacketObservation, &[u8])> {
    let mut bytes = Bytes(bytes);
    let facts = facts(&mut bytes)?;
    let dscp = bytes.optional()?;
    let ecn = bytes.optional()?;
    let key = key_in(&mut bytes)?;
    let observation = PacketObservation {
        key,
        facts,
        dscp,
        ecn,
        // As observation.rs has it where a packet is counted under its own addresses.
        arrived_from: (key.source, key.ports().0),
        tcp_flags: facts.tcp_flags,
        l7: None,
        quoted: None,
    };
    Some((observation, bytes.0))
}

fn facts(bytes: &mut Bytes) -> Option<PacketFacts> {
    Some(PacketFacts {
        time: Timestamp::from_nanos(bytes.number()?),
        frame_octets: bytes.narrow()?,
        captured_octets: bytes.narrow()?,
        ttl: bytes.optional()?,
        tcp_flags: bytes.optional()?.map(flags),
        icmp: bytes.optional()?.map(kind_and_code),
    })
}

fn kind_and_code(icmp: u16) -> (u8, u8) {
    let [kind, code] = icmp.to_be_bytes();
    (kind, code)
}

fn flags(mask: u16) -> TcpFlags {
    TcpFlags {
        fin: mask & 1 != 0,
        syn: mask & 2 != 0,
        rst: mask & 4 != 0,
        psh: mask & 8 != 0,
        ack: mask & 16 != 0,
        urg: mask & 32 != 0,
        ece: mask & 64 != 0,
        cwr: mask & 128 != 0,
        ns: mask & 256 != 0,
    }
}

/// The key whose form all of the bytes are, if its tunnel is of a kind that the Rust has.
pub fn key(bytes: &[u8]) -> Option<FlowKey> {
    let mut bytes = Bytes(bytes);
    let key = key_in(&mut bytes)?;
    bytes.0.is_empty().then_some(key)
}

fn key_in(bytes: &mut Bytes) -> Option<FlowKey> {
    let protocol = bytes.narrow()?;
    let ethertype = bytes.optional()?;
    let endpoints = endpoints(bytes)?;
    Some(FlowKey {
        source: address(bytes)?,
        destination: address(bytes)?,
        endpoints,
        protocol,
        ethertype,
        source_mac: MacAddress::new(bytes.raw()?),
        destination_mac: MacAddress::new(bytes.raw()?),
        vlan: vlan(bytes)?,
        encapsulation: encapsulation(bytes)?,
    })
}

fn endpoints(bytes: &mut Bytes) -> Option<Endpoints> {
    match bytes.number()? {
        0 => Some(Endpoints::None),
        1 => Some(Endpoints::Ports {
            source: bytes.narrow()?,
            destination: bytes.narrow()?,
        }),
        2 => Some(Endpoints::SecurityAssociation(bytes.narrow()?)),
        3 => Some(Endpoints::GreProtocol(bytes.narrow()?)),
        _ => None,
    }
}

fn address(bytes: &mut Bytes) -> Option<IpAddr> {
    match bytes.number()? {
        4 => Some(IpAddr::from(bytes.raw::<4>()?)),
        6 => Some(IpAddr::from(bytes.raw::<16>()?)),
        _ => None,
    }
}

fn vlan(bytes: &mut Bytes) -> Option<VlanTags> {
    let mut stack = [0; 2];
    let count: usize = bytes.narrow()?;
    for tag in stack.get_mut(..count)? {
        *tag = bytes.narrow()?;
    }
    Some(VlanTags::from_stack(&stack[..count]))
}

/// The outer addresses, which document 01 does not have, are absent.
fn encapsulation(bytes: &mut Bytes) -> Option<Option<Encapsulation>> {
    let Some(kind) = bytes.optional()? else {
        return Some(None);
    };
    Some(Some(Encapsulation {
        kind: kind_of(kind)?,
        outer: None,
        id: bytes.optional()?,
    }))
}

/// The number is the one that the Rust's cast gives.
fn kind_of(number: u8) -> Option<EncapKind> {
    match number {
        0 => Some(EncapKind::Vxlan),
        1 => Some(EncapKind::Geneve),
        2 => Some(EncapKind::Gre),
        3 => Some(EncapKind::Mpls),
        4 => Some(EncapKind::Pppoe),
        5 => Some(EncapKind::IpInIp),
        6 => Some(EncapKind::Other),
        _ => None,
    }
}
