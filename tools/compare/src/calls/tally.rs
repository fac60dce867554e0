//! What the calls have covered.

use std::fmt;

use crate::engine::Answer;

pub const REFUSALS: usize = 10;

#[derive(Debug, Clone, Default)]
pub struct Tally {
    pub cases: u64,
    pub openings: u64,
    pub feeds: u64,
    pub sweeps: u64,
    pub drains: u64,
    pub numbers: u64,
    pub packet_forms: u64,
    pub record_forms: u64,
    /// Calls by their refusal's number, 0 for none.
    pub refusals: [u64; REFUSALS],
    /// What feeding took and handed out, with sweeps and drains.
    pub packets: u64,
    pub records: u64,
    /// States changed by hand, and how many of these were still sound.
    pub damaged: u64,
    pub still_sound: u64,
}

impl Tally {
    pub fn refusal(&mut self, number: u64) {
        self.refusals[number as usize] += 1;
    }

    pub fn answer(&mut self, answer: &Answer) {
        self.refusal(answer.refusal);
        self.packets += answer.packets_taken;
        self.records += answer.records_written;
    }

    /// All calls of the library but for the count of open flows, which follows each.
    pub fn calls(&self) -> u64 {
        self.openings
            + self.feeds
            + self.sweeps
            + self.drains
            + self.numbers
            + self.packet_forms
            + self.record_forms
    }

    pub fn add(&mut self, other: &Tally) {
        self.cases += other.cases;
        self.openings += other.openings;
        self.feeds += other.feeds;
        self.sweeps += other.sweeps;
        self.drains += other.drains;
        self.numbers += other.numbers;
        self.packet_forms += other.packet_forms;
        self.record_forms += other.record_forms;
        for (sum, count) in self.refusals.iter_mut().zip(other.refusals) {
            *sum += count;
        }
        self.packets += other.packets;
        self.records += other.records;
        self.damaged += other.damaged;
        self.still_sound += other.still_sound;
    }
}

impl fmt::Display for Tally {
    fn fmt(&self, f: &mut fmt::Formatter) -> fmt::Result {
        let refusals: Vec<String> = self.refusals.iter().map(u64::to_string).collect();
        write!(
            f,
            "{} calls in {} cases: {} openings, {} feeds, {} sweeps, {} drains, {} numbers, \
             {} packet forms, {} record forms; {} packets, {} records; {} states damaged, {} of them \
             still sound\ncalls by refusal, 0 to 9: {}",
            self.calls(),
            self.cases,
            self.openings,
            self.feeds,
            self.sweeps,
            self.drains,
            self.numbers,
            self.packet_forms,
            self.record_forms,
            self.packets,
            self.records,
            self.damaged,
            self.still_sound,
            refusals.join(" ")
        )
    }
}
