//! What `replay` prints, on the model: it "reads timeout, resolution and packet forms from standard
//! input, with capacity 32, prints each finished record, and drains at the end".

use crate::model::record::FIN_REASON;
use crate::model::{Record, Refusal, State, drain, feed, open, read_number, read_record};

const CAPACITY: u64 = 32;

/// "Room for (capacity + 1) × 358 bytes always suffices for one packet."
const ROOM: usize = (CAPACITY as usize + 1) * 358;

/// The numbers that an input begins with, and the packets behind them.
struct Head<'a> {
    timeout: u64,
    resolution: u64,
    packets: &'a [u8],
}

/// What is printed so far, and what the last line is to count.
#[derive(Default)]
struct Printed {
    text: String,
    packets: u64,
    records: u64,
    clean: u64,
}

/// The whole output for an input.
pub fn replay(input: &[u8]) -> String {
    let mut printed = Printed::default();
    match read_head(input) {
        Ok(head) => printed.run(&head),
        Err(refusal) => printed.refused(refusal.number()),
    }
    printed.total()
}

/// "The first two are numbers (64-bit; 0 or 1)."
fn read_head(input: &[u8]) -> Result<Head<'_>, Refusal> {
    let (timeout, length) = read_number(input, u64::MAX)?;
    let behind = &input[length..];
    let (resolution, length) = read_number(behind, 1)?;
    Ok(Head {
        timeout,
        resolution,
        packets: &behind[length..],
    })
}

impl Printed {
    fn run(&mut self, head: &Head) {
        let memory = 256 + 640 * CAPACITY;
        let mut state = open(memory, CAPACITY, head.timeout, head.resolution)
            .expect("capacity and memory are in order");
        let refusal = self.feed(&mut state, head.packets);
        if refusal != 0 {
            self.refused(refusal);
        }
        self.drain(&mut state);
    }

    /// Feeds to the end or to a refusal, whose number it answers. Where the output is full it is
    /// printed, and feeding goes on.
    fn feed(&mut self, state: &mut State, packets: &[u8]) -> u64 {
        let mut rest = packets;
        loop {
            let mut output = vec![0; ROOM];
            let answer = feed(state, rest, &mut output);
            self.packets += answer.packets_taken;
            self.finished(&output[..answer.output_bytes as usize]);
            rest = &rest[answer.batch_bytes_used as usize..];
            if answer.refusal != Refusal::Room.number() {
                return answer.refusal;
            }
            assert!(answer.packets_taken > 0, "there is room for any one packet");
        }
    }

    fn drain(&mut self, state: &mut State) {
        let mut output = vec![0; ROOM];
        let answer = drain(state, &mut output);
        assert_eq!(answer.refusal, 0, "there is room for every open flow");
        self.finished(&output[..answer.output_bytes as usize]);
    }

    fn finished(&mut self, filled: &[u8]) {
        let mut rest = filled;
        while !rest.is_empty() {
            let (record, length) = read_record(rest).expect("the output holds records");
            self.text += &line(&record);
            self.records += 1;
            self.clean += u64::from(record.end_reason == Some(FIN_REASON));
            rest = &rest[length..];
        }
    }

    /// "On a refusal it prints `refused NUMBER after PACKETS`"
    fn refused(&mut self, refusal: u64) {
        self.text += &format!("refused {refusal} after {}\n", self.packets);
    }

    /// "Last: packets, records, clean closes (reason Fin)."
    fn total(self) -> String {
        let counts = format!("{} {} {}", self.packets, self.records, self.clean);
        self.text + &format!("total {counts}\n")
    }
}

/// "Line: reason, start, end, forward and reverse packets, forward and reverse octets."
fn line(record: &Record) -> String {
    let names = ["IdleTimeout", "Fin", "Rst", "CaptureEnd"];
    let reason = record.end_reason.expect("the record is finished");
    let (forward, reverse) = (&record.forward, &record.reverse);
    format!(
        "{} {} {} {} {} {} {}\n",
        names[reason as usize],
        record.start,
        record.end,
        forward.packets,
        reverse.packets,
        forward.octets,
        reverse.octets
    )
}

#[cfg(test)]
mod tests {
    use super::*;

    #[test]
    fn heads_that_cannot_be_read() {
        let refused = |number: u64| format!("refused {number} after 0\ntotal 0 0 0\n");
        assert_eq!(replay(&[]), refused(4));
        assert_eq!(replay(&[0xE8]), refused(9));
        assert_eq!(replay(&[0xE8, 0x07]), refused(4));
        assert_eq!(replay(&[0x80, 0x00]), refused(4));
        assert_eq!(replay(&[0xE8, 0x07, 2]), refused(4));
    }

    #[test]
    fn no_packets() {
        assert_eq!(replay(&[0, 1]), "total 0 0 0\n");
    }

    #[test]
    fn a_cut_packet() {
        assert_eq!(replay(&[0, 0, 5]), "refused 9 after 0\ntotal 0 0 0\n");
    }
}
