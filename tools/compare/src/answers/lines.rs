//! One answer a line: fields with one space between them, bytes in lower-case hex, numbers in decimal.

use crate::answers::folds::Fold;
use crate::flow::{Direction, FlowKey, TimeResolution};
use crate::forms;
use crate::records::{self, Packet};

/// What stands for a missing or an empty value.
const NOTHING: &str = "-";

/// The shard counts that every key is asked for: none, one, even, odd, and the two largest in use.
const SHARD_COUNTS: [u64; 6] = [0, 1, 2, 7, 4096, u64::MAX];

/// `n MOST VALUE HEX`
pub fn number(most: u64, value: u64) -> String {
    assert!(value <= most);
    format!("n {most} {value} {}", hex(&forms::number(value.into())))
}

/// `w MOST VALUE`
pub fn refused_writing(most: u64, value: u64) -> String {
    assert!(value > most);
    format!("w {most} {value}")
}

/// `r MOST HEX ANSWER`
pub fn refused_reading(most: u64, bytes: &[u8]) -> String {
    let answer = forms::number_refusal(bytes, most).expect("the list holds refusals alone");
    format!("r {most} {} {answer}", hex(bytes))
}

/// `q KEYHEX ANSWER`
pub fn refused_key(bytes: &[u8], answer: u8) -> String {
    format!("q {} {answer}", hex(bytes))
}

/// `k KEYHEX REVERSEDHEX FORGOTTENHEX S0 S1 S2 S7 S4096 SMAX NAME VERSION BOTHWAYS PORTS SPI GRE`
pub fn key(key: &FlowKey) -> String {
    let mut forgotten = *key;
    forgotten.forget_link_addresses();
    let mut fields = vec![
        "k".to_string(),
        hex(&forms::key(key)),
        hex(&forms::key(&key.reversed())),
        hex(&forms::key(&forgotten)),
    ];
    fields.extend(SHARD_COUNTS.map(|count| shard(key, count)));
    fields.extend(names(key));
    fields.join(" ")
}

fn shard(key: &FlowKey, count: u64) -> String {
    let count = usize::try_from(count).expect("the Rust's shard counts have 64 bits here");
    key.shard(count).to_string()
}

/// The fields from NAME on: what the key is called, and what its endpoints are.
fn names(key: &FlowKey) -> [String; 6] {
    let ends = key.endpoints;
    let ports = ends.ports().map(|(from, to)| format!("{from}:{to}"));
    [
        or_nothing(Some(key.protocol_name().to_string()).filter(|name| !name.is_empty())),
        or_nothing(key.ip_version()),
        u8::from(ends.has_reverse_direction()).to_string(),
        or_nothing(ports),
        or_nothing(ends.security_association()),
        or_nothing(ends.gre_protocol()),
    ]
}

/// `p HEX`
pub fn packet(packet: &Packet) -> String {
    format!("p {}", hex(&records::packet(packet)))
}

/// `y HEX ANSWER`
pub fn refused_packet(bytes: &[u8], answer: u8) -> String {
    format!("y {} {answer}", hex(bytes))
}

/// `f RESOLUTION REASON DIRECTIONS PACKETS RECORD`
pub fn fold(fold: &Fold) -> String {
    let resolution = match fold.resolution {
        TimeResolution::Microseconds => 0,
        TimeResolution::Nanoseconds => 1,
    };
    let directions: String = fold.packets.iter().map(|(way, _)| letter(*way)).collect();
    let packets: Vec<String> = fold
        .packets
        .iter()
        .map(|(_, packet)| hex(&records::packet(packet)))
        .collect();
    let record = records::record(&fold.key(), &fold.record());
    format!(
        "f {resolution} {} {directions} {} {}",
        fold.reason.as_str(),
        packets.join(","),
        hex(&record)
    )
}

fn letter(direction: Direction) -> char {
    match direction {
        Direction::Forward => 'f',
        Direction::Reverse => 'r',
    }
}

/// `t RECORD PACKETS OCTETS BOTHWAYS DURATION`
pub fn totals(fold: &Fold) -> String {
    let record = fold.record();
    format!(
        "t {} {} {} {} {}",
        hex(&records::record(&fold.key(), &record)),
        record.packets(),
        record.frame_octets(),
        u8::from(record.is_bidirectional()),
        record.time.duration()
    )
}

/// `r HEX`
pub fn sound_record(bytes: &[u8]) -> String {
    format!("r {}", hex(bytes))
}

/// `x HEX ANSWER`
pub fn refused_record(bytes: &[u8], answer: u8) -> String {
    format!("x {} {answer}", hex(bytes))
}

fn or_nothing<T: ToString>(value: Option<T>) -> String {
    value.map_or(NOTHING.to_string(), |value| value.to_string())
}

fn hex(bytes: &[u8]) -> String {
    if bytes.is_empty() {
        return NOTHING.to_string();
    }
    bytes.iter().map(|byte| format!("{byte:02x}")).collect()
}
