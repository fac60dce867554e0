//! The number form, and optional numbers.

use crate::face;
use crate::refusal::{unless_refused, Refusal};

/// The most bytes that a number's form takes.
pub const NUMBER_MOST: usize = 10;

/// Reads the number of at most `most` that the bytes begin with: its value and the bytes that it took.
///
/// Refused with [`Refusal::Packet`] where no such number, in its shortest form, begins the bytes, and with [`Refusal::Short`] where they
/// stop in the middle of one.
///
/// ```
/// use braidpuddle::{read_number, Refusal};
///
/// assert_eq!(read_number(&[0xac, 0x02, 0xff], 65535), Ok((300, 2)));
/// assert_eq!(read_number(&[0x80, 0x00], 65535), Err(Refusal::Packet));
/// assert_eq!(read_number(&[0xac], 65535), Err(Refusal::Short));
/// ```
pub fn read_number(bytes: &[u8], most: u64) -> Result<(u64, usize), Refusal> {
    let (refusal, [value, used]) = face::read_number(bytes, most);
    unless_refused(refusal, (value, used as usize))
}

/// Writes a number of at most `most` behind what `out` holds: the bytes that it took.
///
/// Refused with [`Refusal::Packet`] where the value is above `most`; `out` stays as it was.
///
/// ```
/// use braidpuddle::{write_number, Refusal};
///
/// let mut out = vec![7];
/// assert_eq!(write_number(300, 65535, &mut out), Ok(2));
/// assert_eq!(out, [7, 0xac, 0x02]);
/// assert_eq!(write_number(65536, 65535, &mut out), Err(Refusal::Packet));
/// ```
pub fn write_number(value: u64, most: u64, out: &mut Vec<u8>) -> Result<usize, Refusal> {
    let mut form = [0; NUMBER_MOST];
    let (refusal, written) = face::write_number(&mut form, value, most);
    let form = unless_refused(refusal, &form[..written as usize])?;
    out.extend_from_slice(form);
    Ok(form.len())
}

/// The number of an optional: 0 for absent, else the value plus 1.
pub(crate) fn optional_number<T: Into<u64>>(value: Option<T>) -> u64 {
    value.map_or(0, |value| value.into() + 1)
}

/// The optional of a number that the library has judged to be in range.
pub(crate) fn optional_from<T: TryFrom<u64>>(number: u64) -> Option<T> {
    number.checked_sub(1).map(in_range)
}

/// A number that the library has judged to be in range, as the type of that range.
pub(crate) fn in_range<T: TryFrom<u64>>(number: u64) -> T {
    match T::try_from(number) {
        Ok(value) => value,
        Err(_) => unreachable!("the library judges every number it hands out"),
    }
}
