//! Putting an input together: the settings, then packets.

use crate::model::bytes::put_number;
use crate::model::{Address, Endpoints, Key, Packet, write_packet};

pub const FIN: u64 = 1 << 0;
pub const SYN: u64 = 1 << 1;
pub const RST: u64 = 1 << 2;
pub const PSH: u64 = 1 << 3;
pub const ACK: u64 = 1 << 4;

pub const MILLISECOND: u64 = 1_000_000;
pub const SECOND: u64 = 1_000 * MILLISECOND;

pub const TCP: u64 = 6;
pub const UDP: u64 = 17;
pub const ICMP: u64 = 1;

/// The bytes of an input, as far as it is put together.
pub struct Input {
    bytes: Vec<u8>,
}

impl Input {
    /// The timeout is in milliseconds.
    pub fn new(timeout: u64, resolution: u64) -> Self {
        let mut bytes = Vec::new();
        put_number(&mut bytes, timeout);
        put_number(&mut bytes, resolution);
        Input { bytes }
    }

    pub fn packet(mut self, packet: &Packet) -> Self {
        self.bytes.extend(form(packet));
        self
    }

    pub fn packets(self, packets: &[Packet]) -> Self {
        packets.iter().fold(self, Input::packet)
    }

    pub fn bytes(mut self, bytes: &[u8]) -> Self {
        self.bytes.extend(bytes);
        self
    }
}

impl From<Input> for Vec<u8> {
    fn from(input: Input) -> Self {
        input.bytes
    }
}

/// A packet's form.
pub fn form(packet: &Packet) -> Vec<u8> {
    let mut room = [0; 103];
    let length = write_packet(packet, &mut room).expect("every field is in range");
    room[..length].to_vec()
}

/// A conversation between two hosts of 192.0.2.0/24, seen from the first.
pub fn key(protocol: u64, endpoints: Endpoints) -> Key {
    Key {
        protocol,
        ethertype: None,
        endpoints,
        source: Address::V4([192, 0, 2, 1]),
        destination: Address::V4([192, 0, 2, 2]),
        source_mac: [0; 6],
        destination_mac: [0; 6],
        vlan: Vec::new(),
        encapsulation: None,
    }
}

pub fn ports(source: u64, destination: u64) -> Endpoints {
    Endpoints::Ports {
        source,
        destination,
    }
}

/// A TCP conversation of the first host's port with the second's 443.
pub fn conversation(port: u64) -> Key {
    key(TCP, ports(port, 443))
}

/// A packet with nothing but its time, its length and its flags.
pub fn packet(key: &Key, time: u64, flags: u64, octets: u64) -> Packet {
    Packet {
        time,
        frame_octets: octets,
        captured_octets: octets,
        ttl: None,
        tcp_flags: Some(flags),
        icmp: None,
        dscp: None,
        ecn: None,
        key: key.clone(),
    }
}

/// A packet from the conversation's first side.
pub fn there(key: &Key, time: u64, flags: u64) -> Packet {
    packet(key, time, flags, 60)
}

/// A packet from its second side.
pub fn back(key: &Key, time: u64, flags: u64) -> Packet {
    packet(&key.reversed(), time, flags, 54)
}

/// FIN from both sides, one and two nanoseconds after a time.
pub fn both_fins(key: &Key, time: u64) -> [Packet; 2] {
    [
        there(key, time + 1, FIN | ACK),
        back(key, time + 2, FIN | ACK),
    ]
}
