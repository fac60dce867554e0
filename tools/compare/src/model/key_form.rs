//! The key form: "protocol (at most 255); ethertype (optional 16-bit); endpoints ...; source,
//! destination (each 4 with 4 raw bytes, or 6 with 16); two MACs, 6 raw bytes each; VLAN count 0 to
//! 2, then 16-bit tags; encapsulation".

use super::bytes::{Fault, Reader, put_number, put_optional};
use super::key::{Address, Encapsulation, Endpoints, Key};

const MOST_8_BIT: u64 = (1 << 8) - 1;
const MOST_16_BIT: u64 = (1 << 16) - 1;
const MOST_32_BIT: u64 = (1 << 32) - 1;

/// The form of a key that is in range.
pub fn form(key: &Key) -> Vec<u8> {
    let mut bytes = Vec::new();
    put(&mut bytes, key);
    bytes
}

pub fn put(bytes: &mut Vec<u8>, key: &Key) {
    put_number(bytes, key.protocol);
    put_optional(bytes, key.ethertype);
    put_endpoints(bytes, key.endpoints);
    put_address(bytes, key.source);
    put_address(bytes, key.destination);
    bytes.extend(key.source_mac);
    bytes.extend(key.destination_mac);
    put_number(bytes, key.vlan.len() as u64);
    for tag in &key.vlan {
        put_number(bytes, *tag);
    }
    put_optional(bytes, key.encapsulation.map(|tunnel| tunnel.kind));
    if let Some(tunnel) = key.encapsulation {
        put_optional(bytes, tunnel.id);
    }
}

fn put_endpoints(bytes: &mut Vec<u8>, endpoints: Endpoints) {
    let numbers = match endpoints {
        Endpoints::None => vec![0],
        Endpoints::Ports {
            source,
            destination,
        } => vec![1, source, destination],
        Endpoints::Association { spi } => vec![2, spi],
        Endpoints::Gre { protocol } => vec![3, protocol],
    };
    for number in numbers {
        put_number(bytes, number);
    }
}

fn put_address(bytes: &mut Vec<u8>, address: Address) {
    match address {
        Address::V4(raw) => {
            put_number(bytes, 4);
            bytes.extend(raw);
        }
        Address::V6(raw) => {
            put_number(bytes, 6);
            bytes.extend(raw);
        }
    }
}

pub fn read(reader: &mut Reader) -> Result<Key, Fault> {
    Ok(Key {
        protocol: reader.number(255)?,
        ethertype: reader.optional(MOST_16_BIT)?,
        endpoints: read_endpoints(reader)?,
        source: read_address(reader)?,
        destination: read_address(reader)?,
        source_mac: reader.raw()?,
        destination_mac: reader.raw()?,
        vlan: read_vlan(reader)?,
        encapsulation: read_encapsulation(reader)?,
    })
}

/// The key that all of the bytes spell, if they are exactly one key form.
pub fn whole(bytes: &[u8]) -> Option<Key> {
    let mut reader = Reader::new(bytes);
    let key = read(&mut reader).ok()?;
    (reader.place() == bytes.len()).then_some(key)
}

fn read_endpoints(reader: &mut Reader) -> Result<Endpoints, Fault> {
    Ok(match reader.one_of(&[0, 1, 2, 3])? {
        0 => Endpoints::None,
        1 => Endpoints::Ports {
            source: reader.number(MOST_16_BIT)?,
            destination: reader.number(MOST_16_BIT)?,
        },
        2 => Endpoints::Association {
            spi: reader.number(MOST_32_BIT)?,
        },
        _ => Endpoints::Gre {
            protocol: reader.number(MOST_16_BIT)?,
        },
    })
}

fn read_address(reader: &mut Reader) -> Result<Address, Fault> {
    Ok(match reader.one_of(&[4, 6])? {
        4 => Address::V4(reader.raw()?),
        _ => Address::V6(reader.raw()?),
    })
}

fn read_vlan(reader: &mut Reader) -> Result<Vec<u64>, Fault> {
    let count = reader.one_of(&[0, 1, 2])?;
    (0..count).map(|_| reader.number(MOST_16_BIT)).collect()
}

fn read_encapsulation(reader: &mut Reader) -> Result<Option<Encapsulation>, Fault> {
    Ok(match reader.optional(MOST_8_BIT)? {
        None => None,
        Some(kind) => Some(Encapsulation {
            kind,
            id: reader.optional(MOST_32_BIT)?,
        }),
    })
}
