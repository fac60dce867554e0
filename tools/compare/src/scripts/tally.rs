//! What a comparison has covered.

use std::fmt;

use crate::engine::Answer;
use crate::model::Record;

use super::Step;

#[derive(Debug, Clone, Default)]
pub struct Tally {
    pub scripts: u64,
    pub packets: u64,
    pub sweeps: u64,
    pub drains: u64,
    pub opened: u64,
    pub records: u64,
    /// By end reason: IdleTimeout, Fin, Rst, CaptureEnd.
    pub reasons: [u64; 4],
    pub both_ways: u64,
    /// Calls that handed out more than one record, drains aside.
    pub several: u64,
}

impl Tally {
    pub fn call(&mut self, steps: &[Step], answer: &Answer) {
        for step in steps {
            match step {
                Step::Packet(_) => self.packets += 1,
                Step::Sweep(_) => self.sweeps += 1,
                Step::Drain => self.drains += 1,
            }
        }
        self.opened += answer.flows_opened;
        self.records += answer.records_written;
        if !matches!(steps, [Step::Drain]) && answer.records_written > 1 {
            self.several += 1;
        }
    }

    pub fn record(&mut self, record: &Record) {
        if let Some(reason) = record.end_reason {
            self.reasons[reason as usize] += 1;
        }
        if record.forward.packets > 0 && record.reverse.packets > 0 {
            self.both_ways += 1;
        }
    }

    pub fn add(&mut self, other: &Tally) {
        self.scripts += other.scripts;
        self.packets += other.packets;
        self.sweeps += other.sweeps;
        self.drains += other.drains;
        self.opened += other.opened;
        self.records += other.records;
        for (sum, count) in self.reasons.iter_mut().zip(other.reasons) {
            *sum += count;
        }
        self.both_ways += other.both_ways;
        self.several += other.several;
    }
}

impl fmt::Display for Tally {
    fn fmt(&self, f: &mut fmt::Formatter) -> fmt::Result {
        let [idle, fin, rst, end] = self.reasons;
        write!(
            f,
            "{} scripts, {} packets, {} sweeps, {} drains; {} flows opened, {} records \
             (IdleTimeout {idle}, Fin {fin}, Rst {rst}, CaptureEnd {end}; both ways {}); \
             {} batches or sweeps with several records",
            self.scripts,
            self.packets,
            self.sweeps,
            self.drains,
            self.opened,
            self.records,
            self.both_ways,
            self.several
        )
    }
}
