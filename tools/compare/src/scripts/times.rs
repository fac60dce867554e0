//! The times of one script: mostly forward, often out of order, and often right at a deadline.

use crate::random::Random;

const SECOND: u64 = 1_000_000_000;

/// A time of our age, in nanoseconds since 1970: nine groups as a number.
const OF_OUR_AGE: u64 = 1_700_000_000 * SECOND;

/// How many of the latest times a deadline is reckoned from.
const REMEMBERED: usize = 12;

/// Milliseconds: none, short, around L's ceiling, long, the last with which a flow can leave, the
/// last that is exact, and those that are held at the top.
const TIMEOUTS: [u64; 18] = [
    0,
    0,
    1,
    1,
    1,
    2,
    1000,
    1000,
    1000,
    1999,
    2001,
    10_000,
    3_600_000,
    9_223_372_036_854,
    18_446_744_072_709,
    18_446_744_073_709,
    18_446_744_073_710,
    u64::MAX,
];

pub fn any_timeout(random: &mut Random) -> u64 {
    random.one_of(&TIMEOUTS)
}

pub struct Times {
    /// In nanoseconds.
    timeout: u64,
    lateness: u64,
    /// The width of the Rust's buckets.
    bucket: u64,
    /// One time in so many is near a deadline.
    jumps: usize,
    /// One time in so many is at an end of the range, or anywhere.
    strays: usize,
    latest: Vec<u64>,
}

impl Times {
    /// The timeout is in milliseconds.
    pub fn any(random: &mut Random, timeout: u64) -> Self {
        let timeout = timeout.saturating_mul(1_000_000);
        let near_top = u64::MAX - random.u64() % (10 * SECOND);
        let any = random.u64() >> random.below(64);
        let of_our_age = OF_OUR_AGE + random.u64() % (1000 * SECOND);
        Times {
            timeout,
            lateness: SECOND.min(timeout / 2),
            bucket: if timeout == 0 {
                SECOND
            } else {
                SECOND.min(timeout)
            },
            jumps: random.one_of(&[3, 8, 8, 30, 1000]),
            strays: random.one_of(&[20, 200, 1000, 1000]),
            latest: vec![random.one_of(&[0, any, any, of_our_age, near_top])],
        }
    }

    pub fn next(&mut self, random: &mut Random) -> u64 {
        let time = if random.below(self.strays) == 0 {
            self.stray(random)
        } else if random.below(self.jumps) == 0 {
            self.jump(random)
        } else {
            self.step(random)
        };
        self.latest.push(time);
        if self.latest.len() > REMEMBERED {
            self.latest.remove(0);
        }
        time
    }

    fn last(&self) -> u64 {
        self.latest[self.latest.len() - 1]
    }

    /// A little on, or a little back.
    fn step(&self, random: &mut Random) -> u64 {
        let width = random.one_of(&[1, 2, 1000, self.timeout / 16, self.lateness, self.bucket]);
        let step = random.u64() % width.max(1);
        if random.below(4) == 0 {
            self.last().saturating_sub(step)
        } else {
            self.last().saturating_add(step)
        }
    }

    /// To where a flow that ended at one of the latest times is due, or is just not due.
    fn jump(&self, random: &mut Random) -> u64 {
        let from = random.one_of(&self.latest);
        let due = from.saturating_add(self.timeout);
        let leaves = due.saturating_add(self.lateness);
        let next_bucket = (due / self.bucket + 1).saturating_mul(self.bucket);
        let held_back = next_bucket.saturating_add(self.lateness);
        let to = random.one_of(&[leaves, leaves, leaves, due, from, next_bucket, held_back]);
        match random.below(3) {
            0 => to.saturating_sub(1),
            1 => to,
            _ => to.saturating_add(1),
        }
    }

    fn stray(&self, random: &mut Random) -> u64 {
        let from_top = u64::MAX - self.timeout;
        let leaves_at_top = from_top.saturating_sub(self.lateness);
        let any = random.u64() >> random.below(64);
        let edges = [0, 1, u64::MAX - 1, u64::MAX, from_top, leaves_at_top, any];
        let edge = random.one_of(&edges);
        random.one_of(&[edge, edge.saturating_add(1), edge.saturating_sub(1)])
    }
}
