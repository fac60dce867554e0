//! The record form: "schema, always 1; end reason ...; start state ...; resolution ...; start; end;
//! for each direction, forward first: packets, frame octets, length minimum and maximum (optional
//! 32-bit), nine flag counts; TTL minimum and maximum (optional); DSCP, ECN, ICMP; captured octets;
//! truncated 0 or 1; key".

use super::bytes::{Fault, Reader, put_number, put_optional};
use super::key_form;
use super::output::copy_into;
use super::record::{Direction, Record, SCHEMA};
use super::refusal::Refusal;
use super::sound::sound_record;

const MOST_8_BIT: u64 = (1 << 8) - 1;
const MOST_16_BIT: u64 = (1 << 16) - 1;
const MOST_32_BIT: u64 = (1 << 32) - 1;

/// The form of a finished record that is in range.
pub fn form(record: &Record) -> Vec<u8> {
    let mut bytes = Vec::new();
    put_number(&mut bytes, record.schema);
    put_number(&mut bytes, record.end_reason.expect("the flow is finished"));
    put_number(&mut bytes, record.start_state);
    put_number(&mut bytes, record.resolution);
    put_number(&mut bytes, record.start);
    put_number(&mut bytes, record.end);
    put_direction(&mut bytes, &record.forward);
    put_direction(&mut bytes, &record.reverse);
    put_optional(&mut bytes, record.ttl_minimum);
    put_optional(&mut bytes, record.ttl_maximum);
    put_optional(&mut bytes, record.dscp);
    put_optional(&mut bytes, record.ecn);
    put_optional(&mut bytes, record.icmp);
    put_number(&mut bytes, record.captured_octets);
    put_number(&mut bytes, record.truncated);
    key_form::put(&mut bytes, &record.key);
    bytes
}

fn put_direction(bytes: &mut Vec<u8>, direction: &Direction) {
    put_number(bytes, direction.packets);
    put_number(bytes, direction.octets);
    put_optional(bytes, direction.length_minimum);
    put_optional(bytes, direction.length_maximum);
    for count in direction.flags {
        put_number(bytes, count);
    }
}

fn read(reader: &mut Reader) -> Result<Record, Fault> {
    Ok(Record {
        schema: reader.one_of(&[SCHEMA])?,
        end_reason: Some(reader.one_of(&[0, 1, 2, 3])?),
        start_state: reader.one_of(&[0, 1, 2])?,
        resolution: reader.one_of(&[0, 1])?,
        start: reader.number(u64::MAX)?,
        end: reader.number(u64::MAX)?,
        forward: read_direction(reader)?,
        reverse: read_direction(reader)?,
        ttl_minimum: reader.optional(MOST_8_BIT)?,
        ttl_maximum: reader.optional(MOST_8_BIT)?,
        dscp: reader.optional(MOST_8_BIT)?,
        ecn: reader.optional(MOST_8_BIT)?,
        icmp: reader.optional(MOST_16_BIT)?,
        captured_octets: reader.number(u64::MAX)?,
        truncated: reader.one_of(&[0, 1])?,
        key: key_form::read(reader)?,
    })
}

fn read_direction(reader: &mut Reader) -> Result<Direction, Fault> {
    let mut direction = Direction {
        packets: reader.number(u64::MAX)?,
        octets: reader.number(u64::MAX)?,
        length_minimum: reader.optional(MOST_32_BIT)?,
        length_maximum: reader.optional(MOST_32_BIT)?,
        ..Direction::default()
    };
    for count in &mut direction.flags {
        *count = reader.number(u64::MAX)?;
    }
    Ok(direction)
}

/// One record from the beginning of the bytes, and the length of its form.
///
/// "A record also meets "sound record"": fields that are each within bounds are no form if it does
/// not. "Reading one form from an empty buffer answers 4, for a record 8."
pub fn read_record(bytes: &[u8]) -> Result<(Record, usize), Refusal> {
    let mut reader = Reader::new(bytes);
    match read(&mut reader) {
        Ok(record) if sound_record(&record) => Ok((record, reader.place())),
        Err(Fault::CutOff) if !bytes.is_empty() => Err(Refusal::Short),
        _ => Err(Refusal::Record),
    }
}

/// Writes one record, and answers the length of its form. "3, 7 for sweep, drain and writing a record
/// alone."
pub fn write_record(record: &Record, output: &mut [u8]) -> Result<usize, Refusal> {
    if !sound_record(record) {
        return Err(Refusal::Damaged);
    }
    copy_into(output, &form(record))
}
