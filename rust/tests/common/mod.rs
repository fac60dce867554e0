//! What the tests share: packets of one conversation, and values at random.
#![allow(dead_code)]

use braidpuddle::{
    Address, Bounds, Counts, DirectionCounts, Encapsulation, EndReason, Endpoints, Engine, Facts,
    FlagCounts, Icmp, Key, MacAddress, Millis, Nanos, Packet, Record, Resolution, StartState,
    TcpFlags, VlanTags,
};

pub const SECOND: u64 = 1_000_000_000;

pub const NO_FLAGS: TcpFlags = TcpFlags(0);

/// The flags of a packet by their initials, as in "SA".
pub fn flags(initials: &str) -> TcpFlags {
    initials.chars().fold(NO_FLAGS, |flags, initial| {
        flags
            | match initial {
                'F' => TcpFlags::FIN,
                'S' => TcpFlags::SYN,
                'R' => TcpFlags::RST,
                'A' => TcpFlags::ACK,
                other => panic!("no flag is meant by {other}"),
            }
    })
}

/// The key of one of many TCP conversations, from the side that opens it.
pub fn conversation(number: u16) -> Key {
    Key::new(
        6,
        Address::from([10, 0, 0, 1]),
        Address::from([10, 0, 0, 2]),
        Endpoints::Ports {
            source: 40000 + number,
            destination: 443,
        },
    )
}

pub fn facts(time: u64, octets: u32, initials: &str) -> Facts {
    Facts {
        time: Nanos(time),
        frame_octets: octets,
        captured_octets: octets,
        flags: Some(flags(initials)),
        ..Facts::default()
    }
}

/// A packet of 60 octets.
pub fn packet(time: u64, key: Key, initials: &str) -> Packet {
    Packet {
        facts: facts(time, 60, initials),
        key,
    }
}

pub fn batch(packets: &[Packet]) -> Vec<u8> {
    let mut bytes = Vec::new();
    for packet in packets {
        packet
            .encode(&mut bytes)
            .expect("the tests' packets are in range");
    }
    bytes
}

pub fn engine(capacity: u64, timeout: u64) -> Engine {
    Engine::open(capacity, Millis(timeout), Resolution::Microseconds).expect("opened")
}

/// Feeds all of it, and says which records came out, as lines.
pub fn feed_all(engine: &mut Engine, packets: &[Packet]) -> Vec<String> {
    let mut out = vec![0; engine.room_for_one() * packets.len()];
    let bytes = batch(packets);
    let fed = engine.feed(&bytes, &mut out);
    assert_eq!(fed.refusal, None);
    assert_eq!(fed.used, bytes.len());
    assert_eq!(fed.packets, packets.len() as u64);
    let lines = lines(fed.finished());
    assert_eq!(fed.records, lines.len() as u64);
    lines
}

pub fn sweep(engine: &mut Engine, time: u64) -> Vec<String> {
    let mut out = vec![0; engine.room_for_one()];
    lines(
        engine
            .sweep(Nanos(time), &mut out)
            .expect("swept")
            .finished(),
    )
}

pub fn drain(engine: &mut Engine) -> Vec<String> {
    let mut out = vec![0; engine.room_for_one()];
    lines(engine.drain(&mut out).expect("drained").finished())
}

pub fn lines(records: braidpuddle::Records<'_>) -> Vec<String> {
    records
        .map(|record| record.expect("what a call writes is records").to_string())
        .collect()
}

/// SplitMix64.
pub struct Random(pub u64);

impl Random {
    pub fn number(&mut self) -> u64 {
        self.0 = self.0.wrapping_add(0x9E37_79B9_7F4A_7C15);
        let mut value = self.0;
        value = (value ^ (value >> 30)).wrapping_mul(0xBF58_476D_1CE4_E5B9);
        value = (value ^ (value >> 27)).wrapping_mul(0x94D0_49BB_1331_11EB);
        value ^ (value >> 31)
    }

    pub fn below(&mut self, bound: u64) -> u64 {
        self.number() % bound
    }

    /// A number with a random count of bits, so that short forms come up as often as long ones; at times the greatest.
    pub fn sized(&mut self, bits: u32) -> u64 {
        let most = u64::MAX >> (64 - bits);
        match self.below(8) {
            0 => most,
            _ => {
                let kept = self.below(u64::from(bits) + 1) as u32;
                self.number() & most.checked_shr(bits - kept).unwrap_or(0)
            }
        }
    }

    pub fn maybe<T>(&mut self, make: impl FnOnce(&mut Random) -> T) -> Option<T> {
        if self.below(2) == 0 {
            None
        } else {
            Some(make(self))
        }
    }

    pub fn raw<const N: usize>(&mut self) -> [u8; N] {
        std::array::from_fn(|_| self.number() as u8)
    }

    pub fn address(&mut self) -> Address {
        match self.below(2) {
            0 => Address::from(self.raw::<4>()),
            _ => Address::from(self.raw::<16>()),
        }
    }

    pub fn endpoints(&mut self) -> Endpoints {
        match self.below(4) {
            0 => Endpoints::None,
            1 => Endpoints::Ports {
                source: self.sized(16) as u16,
                destination: self.sized(16) as u16,
            },
            2 => Endpoints::SecurityAssociation(self.sized(32) as u32),
            _ => Endpoints::GreProtocol(self.sized(16) as u16),
        }
    }

    pub fn vlan(&mut self) -> VlanTags {
        match self.below(3) {
            0 => VlanTags::Untagged,
            1 => VlanTags::Single(self.sized(16) as u16),
            _ => VlanTags::Double(self.sized(16) as u16, self.sized(16) as u16),
        }
    }

    pub fn key(&mut self) -> Key {
        Key {
            protocol: self.sized(8) as u8,
            ethertype: self.maybe(|random| random.sized(16) as u16),
            endpoints: self.endpoints(),
            source: self.address(),
            destination: self.address(),
            source_mac: MacAddress(self.raw()),
            destination_mac: MacAddress(self.raw()),
            vlan: self.vlan(),
            encapsulation: self.maybe(|random| Encapsulation {
                kind: random.sized(8) as u8,
                id: random.maybe(|random| random.sized(32) as u32),
            }),
        }
    }

    pub fn icmp(&mut self) -> Icmp {
        Icmp {
            kind: self.sized(8) as u8,
            code: self.sized(8) as u8,
        }
    }

    pub fn facts(&mut self) -> Facts {
        Facts {
            time: Nanos(self.sized(64)),
            frame_octets: self.sized(32) as u32,
            captured_octets: self.sized(32) as u32,
            ttl: self.maybe(|random| random.sized(8) as u8),
            flags: self.maybe(|random| TcpFlags(random.sized(9) as u16)),
            icmp: self.maybe(Random::icmp),
            dscp: self.maybe(|random| random.sized(8) as u8),
            ecn: self.maybe(|random| random.sized(8) as u8),
        }
    }

    pub fn packet(&mut self) -> Packet {
        Packet {
            facts: self.facts(),
            key: self.key(),
        }
    }

    /// Two numbers, the lesser first.
    fn ordered(&mut self, bits: u32) -> (u64, u64) {
        let (one, other) = (self.sized(bits), self.sized(bits));
        (one.min(other), one.max(other))
    }

    /// A sound direction: its sums leave room for the other's.
    fn direction(&mut self, packets: u64) -> DirectionCounts {
        if packets == 0 {
            return DirectionCounts::default();
        }
        let (least, greatest) = self.ordered(32);
        let mut flag = || self.number() % packets.saturating_add(1).max(1);
        let flags = FlagCounts {
            fin: flag(),
            syn: flag(),
            rst: flag(),
            psh: flag(),
            ack: flag(),
            urg: flag(),
            ece: flag(),
            cwr: flag(),
            ns: flag(),
        };
        DirectionCounts {
            packets,
            frame_octets: self.sized(63),
            length: Some(Bounds {
                least: least as u32,
                greatest: greatest as u32,
            }),
            flags,
        }
    }

    /// A sound record.
    pub fn record(&mut self) -> Record {
        Record {
            key: self.key(),
            reason: self.one_of([
                EndReason::IdleTimeout,
                EndReason::Fin,
                EndReason::Rst,
                EndReason::CaptureEnd,
            ]),
            counts: self.counts(),
        }
    }

    pub fn counts(&mut self) -> Counts {
        let (start, end) = self.ordered(64);
        let (least, greatest) = self.ordered(8);
        let (forward, reverse) = match self.below(3) {
            0 => (self.sized(63).max(1), 0),
            1 => (0, self.sized(63).max(1)),
            _ => (self.sized(63).max(1), self.sized(63).max(1)),
        };
        Counts {
            start: Nanos(start),
            end: Nanos(end),
            start_state: self.one_of([
                StartState::SynObserved,
                StartState::MidStream,
                StartState::NotApplicable,
            ]),
            resolution: self.one_of([Resolution::Microseconds, Resolution::Finer]),
            ttl: self.maybe(|_| Bounds {
                least: least as u8,
                greatest: greatest as u8,
            }),
            dscp: self.maybe(|random| random.sized(8) as u8),
            ecn: self.maybe(|random| random.sized(8) as u8),
            icmp: self.maybe(Random::icmp),
            captured_octets: self.sized(64),
            truncated: self.below(2) == 1,
            forward: self.direction(forward),
            reverse: self.direction(reverse),
        }
    }

    fn one_of<T: Copy, const N: usize>(&mut self, values: [T; N]) -> T {
        values[self.below(N as u64) as usize]
    }
}
