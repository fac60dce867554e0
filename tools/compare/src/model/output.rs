//! The output: "records are written one behind another, each into the rest of the output"; "output
//! beyond it is untouched".

use super::record::Record;
use super::record_form;
use super::refusal::Refusal;

/// Copies all of the bytes to the beginning of the output, or none if there is not enough room.
pub fn copy_into(output: &mut [u8], bytes: &[u8]) -> Result<usize, Refusal> {
    if bytes.len() > output.len() {
        return Err(Refusal::Room);
    }
    output[..bytes.len()].copy_from_slice(bytes);
    Ok(bytes.len())
}

/// Writes finished records one behind another, all or none, and answers how many bytes they fill.
pub fn write_all(records: &[Record], output: &mut [u8]) -> Result<usize, Refusal> {
    let forms: Vec<Vec<u8>> = records.iter().map(record_form::form).collect();
    copy_into(output, &forms.concat())
}
