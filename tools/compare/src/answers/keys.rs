//! Which keys are asked for: every shape, every name, every tunnel, the extremes, and some at random.

use std::net::{IpAddr, Ipv4Addr, Ipv6Addr};

use crate::flow::{
    ETHERTYPE_ARP, EncapKind, Encapsulation, Endpoints, FlowKey, MacAddress, VlanTags,
};
use crate::random::Random;

const KINDS: [EncapKind; 7] = [
    EncapKind::Vxlan,
    EncapKind::Geneve,
    EncapKind::Gre,
    EncapKind::Mpls,
    EncapKind::Pppoe,
    EncapKind::IpInIp,
    EncapKind::Other,
];

/// The protocols that have a name, their neighbours, which have none, and the ends of the range.
const PROTOCOLS: [u8; 33] = [
    0, 1, 2, 3, 4, 5, 6, 7, 16, 17, 18, 40, 41, 42, 46, 47, 48, 49, 50, 51, 52, 57, 58, 59, 88, 89,
    90, 111, 112, 113, 131, 132, 255,
];

const ENDPOINT_KINDS: usize = 4;
const MOST_TAGS: usize = 2;

/// How many keys are taken at random, after the chosen ones.
const AT_RANDOM: usize = 40;

/// All keys of the list.
pub fn chosen(random: &mut Random) -> Vec<FlowKey> {
    let mut keys = every_shape(random);
    keys.extend(every_protocol());
    keys.extend(every_tunnel(random));
    keys.extend(extremes());
    keys.extend(equal_to_their_reverse(random));
    keys.extend((0..AT_RANDOM).map(|_| any_key(random)));
    keys
}

/// The key with nothing in it.
pub fn plainest() -> FlowKey {
    FlowKey {
        source: IpAddr::V4(Ipv4Addr::UNSPECIFIED),
        destination: IpAddr::V4(Ipv4Addr::UNSPECIFIED),
        endpoints: Endpoints::None,
        protocol: 0,
        ethertype: None,
        source_mac: MacAddress::new([0; 6]),
        destination_mac: MacAddress::new([0; 6]),
        vlan: VlanTags::from_stack(&[]),
        encapsulation: None,
    }
}

/// A TCP conversation on a VLAN.
pub fn typical(random: &mut Random) -> FlowKey {
    FlowKey {
        source: IpAddr::V4(Ipv4Addr::new(192, 0, 2, 1)),
        destination: IpAddr::V4(Ipv4Addr::new(198, 51, 100, 7)),
        endpoints: ports(49152, 443),
        protocol: 6,
        source_mac: any_mac(random),
        destination_mac: any_mac(random),
        vlan: VlanTags::from_stack(&[300]),
        ..plainest()
    }
}

/// The key with the longest form that the Rust's own kinds of tunnel allow.
pub fn longest() -> FlowKey {
    FlowKey {
        source: IpAddr::V6(Ipv6Addr::from([0xFF; 16])),
        destination: IpAddr::V6(Ipv6Addr::from([0xFF; 16])),
        endpoints: ports(65535, 65535),
        protocol: 255,
        ethertype: Some(65535),
        source_mac: MacAddress::new([0xFF; 6]),
        destination_mac: MacAddress::new([0xFF; 6]),
        vlan: VlanTags::from_stack(&[65535, 65535]),
        encapsulation: tunnel(EncapKind::Other, Some(u32::MAX)),
    }
}

/// Short keys that together have every field that a key can have.
pub fn shortest_of_each_kind() -> [FlowKey; 4] {
    [
        plainest(),
        FlowKey {
            endpoints: ports(1, 2),
            vlan: VlanTags::from_stack(&[1, 2]),
            encapsulation: tunnel(EncapKind::Vxlan, None),
            ..plainest()
        },
        FlowKey {
            endpoints: Endpoints::SecurityAssociation(1),
            vlan: VlanTags::from_stack(&[1]),
            ..plainest()
        },
        FlowKey {
            endpoints: Endpoints::GreProtocol(1),
            ..plainest()
        },
    ]
}

/// Each kind of endpoints, with either family on either side, with no tag, one and two, outside a
/// tunnel and inside one. EtherTypes and tunnels take turns among them.
fn every_shape(random: &mut Random) -> Vec<FlowKey> {
    let mut keys = Vec::new();
    for kind in 0..ENDPOINT_KINDS {
        for (source_is_v6, destination_is_v6) in FAMILIES {
            for tags in 0..=MOST_TAGS {
                for tunnelled in [false, true] {
                    // Out of step with the number of tags, so that each meets each.
                    let turn = keys.len() + keys.len() / 6;
                    keys.push(FlowKey {
                        source: any_address(random, source_is_v6),
                        destination: any_address(random, destination_is_v6),
                        endpoints: any_endpoints(random, kind),
                        protocol: random.one_of(&PROTOCOLS),
                        ethertype: ethertype_in_turn(random, turn),
                        source_mac: any_mac(random),
                        destination_mac: any_mac(random),
                        vlan: any_tags(random, tags),
                        encapsulation: tunnelled.then(|| any_tunnel(random)),
                    });
                }
            }
        }
    }
    keys
}

const FAMILIES: [(bool, bool); 4] = [(false, false), (false, true), (true, false), (true, true)];

fn ethertype_in_turn(random: &mut Random, turn: usize) -> Option<u16> {
    match turn % 3 {
        0 => None,
        1 => Some(ETHERTYPE_ARP),
        _ => Some(edge_or_any_u16(random)),
    }
}

fn every_protocol() -> impl Iterator<Item = FlowKey> {
    PROTOCOLS.into_iter().map(|protocol| FlowKey {
        protocol,
        ..plainest()
    })
}

/// Each kind of tunnel with no id, the least, the greatest and another.
fn every_tunnel(random: &mut Random) -> Vec<FlowKey> {
    let mut keys = Vec::new();
    for kind in KINDS {
        for id in [None, Some(0), Some(random.u32()), Some(u32::MAX)] {
            keys.push(FlowKey {
                encapsulation: tunnel(kind, id),
                ..plainest()
            });
        }
    }
    keys
}

/// The plainest key with one field changed, and the longest.
fn extremes() -> Vec<FlowKey> {
    let mut keys = vec![longest()];
    keys.extend(endpoints_at_the_edges());
    keys.extend(addresses_at_the_edges());
    keys.extend(ethertypes_at_the_edges());
    keys.extend(tags_at_the_edges());
    keys.extend(macs_on_one_side());
    keys
}

fn endpoints_at_the_edges() -> impl Iterator<Item = FlowKey> {
    let edges = [
        ports(0, 0),
        ports(65535, 0),
        ports(0, 65535),
        ports(127, 128),
        ports(16383, 16384),
        Endpoints::SecurityAssociation(0),
        Endpoints::SecurityAssociation(u32::MAX),
        Endpoints::SecurityAssociation((1 << 28) - 1),
        Endpoints::SecurityAssociation(1 << 28),
        Endpoints::GreProtocol(0),
        Endpoints::GreProtocol(65535),
    ];
    edges.into_iter().map(|endpoints| FlowKey {
        endpoints,
        protocol: 17,
        ..plainest()
    })
}

/// Addresses at the ends of each family, one of IPv6 that stands for one of IPv4, and those that
/// set a single bit at either end of a half.
fn addresses_at_the_edges() -> impl Iterator<Item = FlowKey> {
    let edges = [
        IpAddr::V4(Ipv4Addr::BROADCAST),
        IpAddr::V4(Ipv4Addr::new(0, 0, 0, 1)),
        IpAddr::V4(Ipv4Addr::new(128, 0, 0, 0)),
        IpAddr::V6(Ipv6Addr::UNSPECIFIED),
        IpAddr::V6(Ipv6Addr::from(u128::MAX)),
        IpAddr::V6(Ipv6Addr::from(1)),
        IpAddr::V6(Ipv6Addr::from(1 << 63)),
        IpAddr::V6(Ipv6Addr::from(1 << 64)),
        IpAddr::V6(Ipv6Addr::from(1 << 127)),
        IpAddr::V6(Ipv4Addr::new(192, 0, 2, 1).to_ipv6_mapped()),
    ];
    edges.into_iter().map(|source| FlowKey {
        source,
        protocol: 58,
        ..plainest()
    })
}

/// ARP's EtherType and its neighbours, with a protocol whose name only they may hide.
fn ethertypes_at_the_edges() -> impl Iterator<Item = FlowKey> {
    let edges = [
        0,
        ETHERTYPE_ARP - 1,
        ETHERTYPE_ARP,
        ETHERTYPE_ARP + 1,
        65535,
    ];
    edges.into_iter().map(|ethertype| FlowKey {
        ethertype: Some(ethertype),
        protocol: 6,
        ..plainest()
    })
}

fn tags_at_the_edges() -> impl Iterator<Item = FlowKey> {
    let edges: [&[u16]; 5] = [&[0], &[65535], &[0, 0], &[0, 65535], &[65535, 0]];
    edges.into_iter().map(|stack| FlowKey {
        vlan: VlanTags::from_stack(stack),
        ..plainest()
    })
}

fn macs_on_one_side() -> [FlowKey; 2] {
    let mac = MacAddress::new([0x02, 0, 0x5E, 0x10, 0, 0xFF]);
    [
        FlowKey {
            source_mac: mac,
            ..plainest()
        },
        FlowKey {
            destination_mac: mac,
            ..plainest()
        },
    ]
}

/// Keys of every kind of endpoints and either family that reversal leaves as they are.
fn equal_to_their_reverse(random: &mut Random) -> Vec<FlowKey> {
    let mut keys = Vec::new();
    for kind in 0..ENDPOINT_KINDS {
        for is_v6 in [false, true] {
            let address = any_address(random, is_v6);
            let mac = any_mac(random);
            let key = FlowKey {
                source: address,
                destination: address,
                endpoints: same_both_ways(any_endpoints(random, kind)),
                source_mac: mac,
                destination_mac: mac,
                ..any_key(random)
            };
            assert_eq!(key, key.reversed());
            keys.push(key);
        }
    }
    keys
}

fn same_both_ways(endpoints: Endpoints) -> Endpoints {
    match endpoints {
        Endpoints::Ports { source, .. } => ports(source, source),
        other => other,
    }
}

pub fn any_key(random: &mut Random) -> FlowKey {
    let (source_is_v6, destination_is_v6) = random.one_of(&FAMILIES);
    let (kind, tags, turn) = (random.below(4), random.below(3), random.below(3));
    FlowKey {
        source: any_address(random, source_is_v6),
        destination: any_address(random, destination_is_v6),
        endpoints: any_endpoints(random, kind),
        protocol: random.u8(),
        ethertype: ethertype_in_turn(random, turn),
        source_mac: any_mac(random),
        destination_mac: any_mac(random),
        vlan: any_tags(random, tags),
        encapsulation: random.one_of(&[false, true]).then(|| any_tunnel(random)),
    }
}

fn ports(source: u16, destination: u16) -> Endpoints {
    Endpoints::Ports {
        source,
        destination,
    }
}

/// A tunnel as document 01 knows it: the Rust's outer addresses are left absent.
fn tunnel(kind: EncapKind, id: Option<u32>) -> Option<Encapsulation> {
    Some(Encapsulation {
        kind,
        outer: None,
        id,
    })
}

fn any_tunnel(random: &mut Random) -> Encapsulation {
    let kind = random.one_of(&KINDS);
    let any = edge_or_any_u32(random);
    let id = random.one_of(&[None, Some(0), Some(any), Some(u32::MAX)]);
    Encapsulation {
        kind,
        outer: None,
        id,
    }
}

fn any_endpoints(random: &mut Random, kind: usize) -> Endpoints {
    match kind {
        0 => Endpoints::None,
        1 => ports(edge_or_any_u16(random), edge_or_any_u16(random)),
        2 => Endpoints::SecurityAssociation(edge_or_any_u32(random)),
        _ => Endpoints::GreProtocol(edge_or_any_u16(random)),
    }
}

fn any_address(random: &mut Random, is_v6: bool) -> IpAddr {
    if is_v6 {
        IpAddr::V6(Ipv6Addr::from(random.bytes::<16>()))
    } else {
        IpAddr::V4(Ipv4Addr::from(random.bytes::<4>()))
    }
}

fn any_mac(random: &mut Random) -> MacAddress {
    MacAddress::new(random.bytes())
}

fn any_tags(random: &mut Random, count: usize) -> VlanTags {
    let stack: Vec<u16> = (0..count).map(|_| edge_or_any_u16(random)).collect();
    VlanTags::from_stack(&stack)
}

/// Half of the time a number at which a form grows by a byte, with or without the 1 of an optional.
fn edge_or_any_u16(random: &mut Random) -> u16 {
    let edge = random.one_of(&[0, 1, 126, 127, 128, 16382, 16383, 16384, 65534, 65535]);
    let any = random.u16();
    random.one_of(&[edge, any])
}

fn edge_or_any_u32(random: &mut Random) -> u32 {
    let group = random.below(4) as u32 + 1;
    let edge = (1u32 << (7 * group)) - random.below(3) as u32;
    let any = random.u32();
    random.one_of(&[edge, any])
}

#[cfg(test)]
mod tests {
    use super::*;
    use crate::forms;

    #[test]
    fn a_key_and_its_reverse_share_a_shard() {
        for key in chosen(&mut Random::new(1)) {
            for shards in [0, 1, 2, 7, 4096, usize::MAX] {
                assert_eq!(key.shard(shards), key.reversed().shard(shards), "{key:?}");
            }
        }
    }

    /// Document 01 allows 72 bytes: the Rust's kinds of tunnel take one byte where two are allowed.
    #[test]
    fn lengths_of_forms() {
        let keys = chosen(&mut Random::new(1));
        let lengths = || keys.iter().map(|key| forms::key(key).len());
        assert_eq!(lengths().min(), Some(27));
        assert_eq!(lengths().max(), Some(71));
    }
}
