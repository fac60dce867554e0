//! One form read or written by the library, beside the model.

use crate::model::{self, read_key, write_key};
use crate::ours::forms as ours;
use crate::words::{self, Facts, Words};

use super::fault::{Fault, holds, same};
use super::guard::Guarded;
use super::tally::Tally;

/// What stands in lent numbers and in the output before a call.
const BEFORE: u64 = 0x5A5A_5A5A_5A5A_5A5A;
const UNTOUCHED: u8 = 0xA5;

#[derive(Debug, Clone)]
pub enum Form {
    ReadNumber {
        bytes: Vec<u8>,
        most: u64,
    },
    WriteNumber {
        value: u64,
        most: u64,
    },
    ReadPacket {
        bytes: Vec<u8>,
    },
    WritePacket {
        facts: Facts,
        key: Vec<u8>,
    },
    ReadRecord {
        bytes: Vec<u8>,
    },
    WriteRecord {
        words: Box<Words>,
        reason: u64,
        key: Vec<u8>,
    },
}

/// Calls the library and the model. A form is written with more room than it needs, exactly that, one
/// byte less, and none.
pub fn run(form: &Form, tally: &mut Tally) -> Result<(), Fault> {
    let count = match form {
        Form::ReadNumber { .. } | Form::WriteNumber { .. } => &mut tally.numbers,
        Form::ReadPacket { .. } | Form::WritePacket { .. } => &mut tally.packet_forms,
        Form::ReadRecord { .. } | Form::WriteRecord { .. } => &mut tally.record_forms,
    };
    match form {
        Form::ReadNumber { bytes, most } => {
            *count += 1;
            tally.refusal(read_number(bytes, *most)?);
        }
        Form::ReadPacket { bytes } => {
            *count += 1;
            tally.refusal(read_packet(bytes)?);
        }
        Form::ReadRecord { bytes } => {
            *count += 1;
            tally.refusal(read_record(bytes)?);
        }
        Form::WriteNumber { .. } | Form::WritePacket { .. } | Form::WriteRecord { .. } => {
            let needed = write_by_model(form, &mut vec![0; 400]).unwrap_or(0);
            for room in [needed + 7, needed, needed.saturating_sub(1), 0] {
                *count += 1;
                tally.refusals[write(form, room)? as usize] += 1;
            }
        }
    }
    Ok(())
}

type Written = Result<usize, model::Refusal>;

fn number_of<T>(answer: &Result<T, model::Refusal>) -> u64 {
    answer.as_ref().err().map_or(0, |refusal| refusal.number())
}

fn read_number(bytes: &[u8], most: u64) -> Result<u64, Fault> {
    let lent = Guarded::new(bytes);
    let mut answer = [BEFORE; 2];
    let refusal = ours::read_number(lent.inside(), most, &mut answer);
    let expected = model::read_number(bytes, most);
    same("the refusal", number_of(&expected), refusal)?;
    let numbers = expected.map_or([BEFORE; 2], |(value, used)| [value, used as u64]);
    same("value and bytes used", numbers, answer)?;
    Ok(refusal)
}

fn read_packet(bytes: &[u8]) -> Result<u64, Fault> {
    let lent = Guarded::new(bytes);
    let (mut facts, mut place) = ([BEFORE; 8], [BEFORE; 2]);
    let refusal = ours::read_packet(lent.inside(), &mut facts, &mut place);
    let expected = model::read_packet(bytes);
    same("the refusal", number_of(&expected), refusal)?;
    let expected = expected.map_or(([BEFORE; 8], [BEFORE; 2]), |(packet, length)| {
        let key = length - write_key(&packet.key).len();
        let place = [key as u64, length as u64];
        (words::facts_of_model(&packet), place)
    });
    same("the packet and its place", expected, (facts, place))?;
    Ok(refusal)
}

fn read_record(bytes: &[u8]) -> Result<u64, Fault> {
    let lent = Guarded::new(bytes);
    let (mut record, mut place) = ([BEFORE; 37], [BEFORE; 3]);
    let refusal = ours::read_record(lent.inside(), &mut record, &mut place);
    let expected = model::read_record(bytes);
    same("the refusal", number_of(&expected), refusal)?;
    let expected = expected.map_or(([BEFORE; 37], [BEFORE; 3]), |(record, length)| {
        let key = length - write_key(&record.key).len();
        let reason = record.end_reason.expect("a record that is read has one");
        let place = [key as u64, length as u64, reason];
        (words::of_model(&record), place)
    });
    same("the record and its place", expected, (record, place))?;
    Ok(refusal)
}

/// Writes one form with so much room.
fn write(form: &Form, room: usize) -> Result<u64, Fault> {
    let mut output = Guarded::new(&vec![UNTOUCHED; room]);
    let mut written = BEFORE;
    let refusal = write_by_library(form, output.inside_mut(), &mut written);
    let mut expected = vec![UNTOUCHED; room];
    let answer = write_by_model(form, &mut expected);
    same("the refusal", number_of(&answer), refusal)?;
    let length = answer.map_or(BEFORE, |length| length as u64);
    same("the bytes written", length, written)?;
    same("the output", &expected[..], output.inside())?;
    holds("bytes around the output were touched", output.is_whole())?;
    Ok(refusal)
}

fn write_by_library(form: &Form, output: &mut [u8], written: &mut u64) -> u64 {
    match form {
        Form::WriteNumber { value, most } => ours::write_number(output, *value, *most, written),
        Form::WritePacket { facts, key } => ours::write_packet(output, facts, key, written),
        Form::WriteRecord { words, reason, key } => {
            ours::write_record(output, words, *reason, key, written)
        }
        _ => panic!("only forms that are written"),
    }
}

/// A key that is not exactly one key form is out of range for a packet, and damage for a record.
fn write_by_model(form: &Form, output: &mut [u8]) -> Written {
    match form {
        Form::WriteNumber { value, most } => model::write_number(*value, *most, output),
        Form::WritePacket { facts, key } => {
            let key = read_key(key).ok_or(model::Refusal::Packet)?;
            model::write_packet(&words::facts_to_model(facts, key), output)
        }
        Form::WriteRecord { words, reason, key } => {
            let key = read_key(key).ok_or(model::Refusal::Damaged)?;
            model::write_record(&words::to_model(words, Some(*reason), key), output)
        }
        _ => panic!("only forms that are written"),
    }
}
