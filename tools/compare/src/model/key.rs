//! What a flow is kept under.

#[derive(Debug, Clone, Copy, PartialEq, Eq)]
pub enum Address {
    V4([u8; 4]),
    V6([u8; 16]),
}

/// "endpoints (0 none; 1 ports, source, destination; 2 association, 32-bit SPI; 3 GRE, 16-bit
/// protocol)"
#[derive(Debug, Clone, Copy, PartialEq, Eq)]
pub enum Endpoints {
    None,
    Ports { source: u64, destination: u64 },
    Association { spi: u64 },
    Gre { protocol: u64 },
}

/// "encapsulation (optional 8-bit kind ...), followed, only if present, by id (optional 32-bit)"
#[derive(Debug, Clone, Copy, PartialEq, Eq)]
pub struct Encapsulation {
    pub kind: u64,
    pub id: Option<u64>,
}

#[derive(Debug, Clone, PartialEq, Eq)]
pub struct Key {
    pub protocol: u64,
    pub ethertype: Option<u64>,
    pub endpoints: Endpoints,
    pub source: Address,
    pub destination: Address,
    pub source_mac: [u8; 6],
    pub destination_mac: [u8; 6],
    pub vlan: Vec<u64>,
    pub encapsulation: Option<Encapsulation>,
}

impl Key {
    /// "Reversal changes over addresses, ports and MACs only."
    pub fn reversed(&self) -> Key {
        let endpoints = match self.endpoints {
            Endpoints::Ports {
                source,
                destination,
            } => Endpoints::Ports {
                source: destination,
                destination: source,
            },
            other => other,
        };
        Key {
            endpoints,
            source: self.destination,
            destination: self.source,
            source_mac: self.destination_mac,
            destination_mac: self.source_mac,
            ..self.clone()
        }
    }

    pub fn is_association(&self) -> bool {
        matches!(self.endpoints, Endpoints::Association { .. })
    }

    /// Whether every field is within its bound.
    pub fn in_range(&self) -> bool {
        self.protocol <= 255
            && self.ethertype.is_none_or(is_16_bit)
            && self.endpoints.in_range()
            && self.vlan.len() <= 2
            && self.vlan.iter().all(|tag| is_16_bit(*tag))
            && self.encapsulation.is_none_or(|tunnel| tunnel.in_range())
    }
}

impl Endpoints {
    fn in_range(&self) -> bool {
        match *self {
            Endpoints::None => true,
            Endpoints::Ports {
                source,
                destination,
            } => is_16_bit(source) && is_16_bit(destination),
            Endpoints::Association { spi } => is_32_bit(spi),
            Endpoints::Gre { protocol } => is_16_bit(protocol),
        }
    }
}

impl Encapsulation {
    fn in_range(&self) -> bool {
        self.kind <= 255 && self.id.is_none_or(is_32_bit)
    }
}

fn is_16_bit(value: u64) -> bool {
    value < 1 << 16
}

fn is_32_bit(value: u64) -> bool {
    value < 1 << 32
}
