//! Makes what shows a difference shorter.

use super::{Script, Step};

/// The script with every step deleted that can be.
pub fn shrink(script: &Script, mut differs: impl FnMut(&Script) -> bool) -> Script {
    let with = |steps: &[Step]| Script {
        steps: steps.to_vec(),
        ..*script
    };
    with(&shortest(&script.steps, |steps| differs(&with(steps))))
}

/// Deletes items, many at once and then one at a time, as long as what is left still differs.
pub fn shortest<T: Clone>(items: &[T], mut differs: impl FnMut(&[T]) -> bool) -> Vec<T> {
    let mut shortest = items.to_vec();
    let mut length = items.len().div_ceil(2).max(1);
    loop {
        let deleted = delete_pieces(&mut shortest, length, &mut differs);
        if length > 1 {
            length = length.div_ceil(2);
        } else if !deleted {
            return shortest;
        }
    }
}

/// Deletes every piece of this length that is not needed. Answers whether any was deleted.
fn delete_pieces<T: Clone>(
    items: &mut Vec<T>,
    length: usize,
    differs: &mut impl FnMut(&[T]) -> bool,
) -> bool {
    let mut deleted = false;
    let mut place = 0;
    while place < items.len() {
        let mut shorter = items.clone();
        let end = (place + length).min(shorter.len());
        shorter.drain(place..end);
        if differs(&shorter) {
            *items = shorter;
            deleted = true;
        } else {
            place += length;
        }
    }
    deleted
}

#[cfg(test)]
mod tests {
    use super::*;
    use crate::engine::Opening;

    fn sweeps(times: impl Iterator<Item = u64>) -> Script {
        Script {
            opening: Opening::with_enough_memory(1, 0, 0),
            batch: 1,
            steps: times.map(Step::Sweep).collect(),
        }
    }

    fn times(script: &Script) -> Vec<u64> {
        let time = |step: &Step| match step {
            Step::Sweep(time) => *time,
            _ => panic!("there are only sweeps"),
        };
        script.steps.iter().map(time).collect()
    }

    #[test]
    fn what_is_needed_stays() {
        let needed = [17, 40, 41, 99];
        let holds_all = |script: &Script| {
            let times = times(script);
            needed.iter().all(|time| times.contains(time))
        };
        let shortest = shrink(&sweeps(0..100), holds_all);
        assert_eq!(times(&shortest), needed);
    }

    #[test]
    fn a_script_may_shrink_to_nothing() {
        assert!(shrink(&sweeps(0..7), |_| true).steps.is_empty());
    }
}
