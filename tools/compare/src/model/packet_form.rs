//! The packet form: "time in nanoseconds (64-bit); frame octets, captured octets (32-bit); TTL
//! (optional 8-bit); TCP flags (optional 9-bit mask ...); ICMP (optional 256 × type + code); DSCP,
//! ECN (optional 8-bit); key".

use super::bytes::{Fault, Reader, put_number, put_optional};
use super::key_form;
use super::output::copy_into;
use super::packet::{FLAGS, Packet};
use super::refusal::Refusal;

const MOST_8_BIT: u64 = (1 << 8) - 1;
const MOST_16_BIT: u64 = (1 << 16) - 1;
const MOST_32_BIT: u64 = (1 << 32) - 1;
const MOST_MASK: u64 = (1 << FLAGS) - 1;

/// The form of a packet that is in range.
pub fn form(packet: &Packet) -> Vec<u8> {
    let mut bytes = Vec::new();
    put_number(&mut bytes, packet.time);
    put_number(&mut bytes, packet.frame_octets);
    put_number(&mut bytes, packet.captured_octets);
    put_optional(&mut bytes, packet.ttl);
    put_optional(&mut bytes, packet.tcp_flags);
    put_optional(&mut bytes, packet.icmp);
    put_optional(&mut bytes, packet.dscp);
    put_optional(&mut bytes, packet.ecn);
    key_form::put(&mut bytes, &packet.key);
    bytes
}

fn read(reader: &mut Reader) -> Result<Packet, Fault> {
    Ok(Packet {
        time: reader.number(u64::MAX)?,
        frame_octets: reader.number(MOST_32_BIT)?,
        captured_octets: reader.number(MOST_32_BIT)?,
        ttl: reader.optional(MOST_8_BIT)?,
        tcp_flags: reader.optional(MOST_MASK)?,
        icmp: reader.optional(MOST_16_BIT)?,
        dscp: reader.optional(MOST_8_BIT)?,
        ecn: reader.optional(MOST_8_BIT)?,
        key: key_form::read(reader)?,
    })
}

/// One packet from the beginning of the bytes, and the length of its form.
///
/// "Reading one form from an empty buffer answers 4."
pub fn read_packet(bytes: &[u8]) -> Result<(Packet, usize), Refusal> {
    let mut reader = Reader::new(bytes);
    match read(&mut reader) {
        Ok(packet) => Ok((packet, reader.place())),
        Err(Fault::CutOff) if !bytes.is_empty() => Err(Refusal::Short),
        Err(_) => Err(Refusal::Packet),
    }
}

/// Writes one packet, and answers the length of its form. "4, 7 for a packet or number."
pub fn write_packet(packet: &Packet, output: &mut [u8]) -> Result<usize, Refusal> {
    if !packet.in_range() {
        return Err(Refusal::Packet);
    }
    copy_into(output, &form(packet))
}
