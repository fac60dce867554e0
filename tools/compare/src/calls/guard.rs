//! Memory that is lent, with bytes around it that nobody may touch.

const GUARD_BYTES: usize = 64;
const GUARD: u8 = 0x99;

#[derive(Clone)]
pub struct Guarded {
    bytes: Vec<u8>,
}

impl Guarded {
    pub fn new(inside: &[u8]) -> Self {
        let guard = [GUARD; GUARD_BYTES];
        Guarded {
            bytes: [&guard[..], inside, &guard].concat(),
        }
    }

    pub fn inside(&self) -> &[u8] {
        &self.bytes[GUARD_BYTES..self.bytes.len() - GUARD_BYTES]
    }

    pub fn inside_mut(&mut self) -> &mut [u8] {
        let end = self.bytes.len() - GUARD_BYTES;
        &mut self.bytes[GUARD_BYTES..end]
    }

    /// Whether the bytes around it are as they were.
    pub fn is_whole(&self) -> bool {
        let (front, rest) = self.bytes.split_at(GUARD_BYTES);
        let behind = &rest[rest.len() - GUARD_BYTES..];
        front.iter().chain(behind).all(|byte| *byte == GUARD)
    }
}

#[cfg(test)]
mod tests {
    use super::*;

    #[test]
    fn a_byte_too_far_is_seen() {
        let mut memory = Guarded::new(&[1, 2, 3]);
        memory.inside_mut().fill(0);
        assert!(memory.is_whole());
        assert_eq!(memory.inside(), [0; 3]);
        for place in [GUARD_BYTES - 1, GUARD_BYTES + 3] {
            let mut touched = memory.clone();
            touched.bytes[place] = 0;
            assert!(!touched.is_whole());
        }
    }
}
