//! Numbers as bytes: "groups of seven bits, low group first, top bit set while more follow, shortest
//! form only, within its field's bound".

use super::output::copy_into;
use super::refusal::Refusal;

const GROUP_BITS: usize = 7;
const MORE_FOLLOW: u8 = 0x80;

/// Why no form could be read.
#[derive(Debug, Clone, Copy, PartialEq, Eq)]
pub enum Fault {
    /// The bytes end within the form, and some form goes on from them.
    CutOff,
    /// No form begins with these bytes.
    NoForm,
}

/// Reads fields one behind another.
pub struct Reader<'a> {
    bytes: &'a [u8],
    place: usize,
}

impl<'a> Reader<'a> {
    pub fn new(bytes: &'a [u8]) -> Self {
        Reader { bytes, place: 0 }
    }

    /// How many bytes have been read.
    pub fn place(&self) -> usize {
        self.place
    }

    fn byte(&mut self) -> Result<u8, Fault> {
        let byte = *self.bytes.get(self.place).ok_or(Fault::CutOff)?;
        self.place += 1;
        Ok(byte)
    }

    /// One number of at most `most`.
    pub fn number(&mut self, most: u64) -> Result<u64, Fault> {
        let most = u128::from(most);
        let mut value: u128 = 0;
        let mut bits = 0;
        loop {
            let byte = self.byte()?;
            value += u128::from(byte & !MORE_FOLLOW) << bits;
            bits += GROUP_BITS;
            if byte & MORE_FOLLOW == 0 {
                // "shortest form only": the last group of several is not 0.
                let shortest = bits == GROUP_BITS || byte != 0;
                let is_form = shortest && value <= most;
                return is_form.then_some(value as u64).ok_or(Fault::NoForm);
            }
            // Every number that goes on from here has a bit above these groups.
            if value + (1 << bits) > most {
                return Err(Fault::NoForm);
            }
        }
    }

    /// "An optional is 0 for absent, else value plus 1." The value is at most `most`.
    pub fn optional(&mut self, most: u64) -> Result<Option<u64>, Fault> {
        Ok(match self.number(most + 1)? {
            0 => None,
            more => Some(more - 1),
        })
    }

    /// One number that is among these.
    pub fn one_of(&mut self, allowed: &[u64]) -> Result<u64, Fault> {
        let most = *allowed.iter().max().expect("some number is allowed");
        let value = self.number(most)?;
        let is_allowed = allowed.contains(&value);
        is_allowed.then_some(value).ok_or(Fault::NoForm)
    }

    pub fn raw<const N: usize>(&mut self) -> Result<[u8; N], Fault> {
        let mut bytes = [0; N];
        for byte in &mut bytes {
            *byte = self.byte()?;
        }
        Ok(bytes)
    }
}

/// Puts a number's form behind the bytes.
pub fn put_number(bytes: &mut Vec<u8>, value: u64) {
    let mut rest = value;
    while rest >> GROUP_BITS != 0 {
        bytes.push(rest as u8 | MORE_FOLLOW);
        rest >>= GROUP_BITS;
    }
    bytes.push(rest as u8);
}

/// Puts an optional's form behind the bytes. No optional field holds 2^64 − 1.
pub fn put_optional(bytes: &mut Vec<u8>, value: Option<u64>) {
    put_number(bytes, value.map_or(0, |value| value + 1));
}

/// One number of at most `most` from the beginning of the bytes, and the length of its form.
///
/// "Reading one form from an empty buffer answers 4."
pub fn read_number(bytes: &[u8], most: u64) -> Result<(u64, usize), Refusal> {
    let mut reader = Reader::new(bytes);
    match reader.number(most) {
        Ok(value) => Ok((value, reader.place())),
        Err(Fault::CutOff) if !bytes.is_empty() => Err(Refusal::Short),
        Err(_) => Err(Refusal::Packet),
    }
}

/// Writes one number of at most `most`, and answers the length of its form. "4, 7 for a packet or
/// number."
pub fn write_number(value: u64, most: u64, output: &mut [u8]) -> Result<usize, Refusal> {
    if value > most {
        return Err(Refusal::Packet);
    }
    let mut form = Vec::new();
    put_number(&mut form, value);
    copy_into(output, &form)
}
