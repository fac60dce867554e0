//! What the probe sees: a few conversations, packet by packet.

use braidpuddle::{Address, Endpoints, Facts, Key, Nanos, Packet, TcpFlags};
use Conversation::{Backup, ClosedPort, Mail, Names, Ping, Web};
use Side::{Answerer, Opener};

const ICMP: u8 = 1;
const TCP: u8 = 6;
const UDP: u8 = 17;

#[derive(Clone, Copy)]
enum Conversation {
    Web,
    Names,
    ClosedPort,
    Ping,
    Mail,
    Backup,
}

#[derive(Clone, Copy)]
enum Side {
    Opener,
    Answerer,
}

/// Time in microseconds, conversation, sender, flags of TCP by their initials, frame octets.
type Sighting = (u64, Conversation, Side, &'static str, u32);

const SIGHTINGS: [Sighting; 30] = [
    (100_000, Web, Opener, "S", 74),
    (130_000, Web, Answerer, "SA", 74),
    (130_500, Web, Opener, "A", 66),
    (131_000, Web, Opener, "PA", 583),
    (165_000, Web, Answerer, "A", 1514),
    (165_200, Web, Answerer, "PA", 1200),
    (165_900, Web, Opener, "A", 66),
    (200_000, Names, Opener, "", 74),
    (215_000, Names, Answerer, "", 130),
    (400_000, ClosedPort, Opener, "S", 74),
    (400_900, ClosedPort, Answerer, "RA", 54),
    (500_000, Ping, Opener, "", 98),
    (512_000, Ping, Answerer, "", 98),
    (1_300_000, Web, Opener, "FA", 66),
    (1_330_000, Web, Answerer, "FA", 66),
    (1_330_400, Web, Opener, "A", 66),
    (1_500_000, Ping, Opener, "", 98),
    (1_512_000, Ping, Answerer, "", 98),
    (2_050_000, Mail, Opener, "S", 74),
    (2_060_000, Mail, Answerer, "SA", 74),
    (2_060_300, Mail, Opener, "A", 66),
    (2_100_000, Mail, Opener, "FA", 66),
    (2_110_000, Mail, Answerer, "FA", 66),
    (2_500_000, Ping, Opener, "", 98),
    (2_512_000, Ping, Answerer, "", 98),
    (6_200_000, Backup, Opener, "PA", 1514),
    (6_200_400, Backup, Opener, "PA", 1514),
    (6_201_000, Backup, Answerer, "A", 66),
    (6_500_000, Ping, Opener, "", 98),
    (6_512_000, Ping, Answerer, "", 98),
];

/// The packets, in order of their time.
pub fn packets() -> Vec<Packet> {
    SIGHTINGS.into_iter().map(packet).collect()
}

fn packet((time_us, conversation, sender, initials, octets): Sighting) -> Packet {
    let opener = opener_key(conversation);
    let key = match sender {
        Opener => opener,
        Answerer => opener.reversed(),
    };
    let facts = Facts {
        time: Nanos(time_us * 1000),
        frame_octets: octets,
        captured_octets: octets,
        flags: (key.protocol == TCP).then(|| flags(initials)),
        ..Facts::default()
    };
    Packet { facts, key }
}

/// The conversation's key as its opener sees it.
fn opener_key(conversation: Conversation) -> Key {
    let client = |host| Address::from([10, 0, 0, host]);
    let server = |host| Address::from([192, 0, 2, host]);
    let ports = |source, destination| Endpoints::Ports {
        source,
        destination,
    };
    match conversation {
        Web => Key::new(TCP, client(1), server(10), ports(40000, 443)),
        Names => Key::new(UDP, client(1), server(53), ports(53000, 53)),
        ClosedPort => Key::new(TCP, client(2), server(10), ports(40001, 8080)),
        Ping => Key::new(ICMP, client(3), server(1), Endpoints::None),
        Mail => Key::new(TCP, client(2), server(25), ports(40002, 25)),
        Backup => Key::new(TCP, client(9), server(99), ports(40003, 873)),
    }
}

fn flags(initials: &str) -> TcpFlags {
    let flag = |initial| match initial {
        'F' => TcpFlags::FIN,
        'S' => TcpFlags::SYN,
        'R' => TcpFlags::RST,
        'P' => TcpFlags::PSH,
        _ => TcpFlags::ACK,
    };
    initials
        .chars()
        .fold(TcpFlags::default(), |flags, initial| flags | flag(initial))
}
