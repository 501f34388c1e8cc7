//! Checks that the live ranges of a side are in the space and do not overlap.
use crate::sides::{REFUSED, RELEASED};
use crate::workloads::{Step, RESET};
use std::collections::BTreeMap;

/// Checks the answers to the steps. Returns the number of refused requests, or what is wrong first.
pub fn check_ranges(space: u32, slots: usize, steps: &[Step], answers: &[u64]) -> Result<usize, String> {
    let mut held: Vec<Option<u64>> = vec![None; slots];
    let mut live: BTreeMap<u64, u64> = BTreeMap::new();
    let mut refused = 0;
    for (i, (step, &answer)) in steps.iter().zip(answers).enumerate() {
        if step.slot == RESET {
            held.fill(None);
            live.clear();
            continue;
        }
        let slot = &mut held[step.slot as usize];
        let end = answer + u64::from(step.size);
        match *slot {
            Some(offset) if answer == RELEASED => {
                live.remove(&offset);
                *slot = None;
            }
            // a refused request is followed by its release, a step of size 0
            None if answer == REFUSED => refused += usize::from(step.size != 0),
            None if answer < REFUSED && step.size != 0 => {
                if end > u64::from(space) {
                    return Err(format!("step {i}: {answer} to {end} leaves the space of {space}"));
                }
                if let Some((other, until)) = live.range(..end).next_back().filter(|(_, until)| **until > answer) {
                    return Err(format!("step {i}: {answer} to {end} overlaps {other} to {until}"));
                }
                live.insert(answer, end);
                *slot = Some(answer);
            }
            _ => return Err(format!("step {i}: {answer} is no answer to a step of size {}", step.size)),
        }
    }
    Ok(refused)
}

/// Asserts that the check finds faults.
pub fn assert_finds_faults() {
    let step = |slot, size| Step { slot, size };
    let of = |steps: &[Step], answers: &[u64]| check_ranges(10, 2, steps, answers);
    assert_eq!(of(&[step(0, 4), step(1, 6)], &[6, 0]), Ok(0));
    assert_eq!(of(&[step(0, 4), step(1, 7), step(1, 0)], &[6, REFUSED, REFUSED]), Ok(1));
    assert_eq!(of(&[step(0, 4), step(0, 0), step(1, 7)], &[0, RELEASED, 3]), Ok(0));
    assert_eq!(of(&[step(0, 4), step(RESET, 0), step(1, 7)], &[0, 0, 0]), Ok(0));
    for faulty in [[6, 1], [6, 9], [6, 5], [0, 3], [0, 5], [6, RELEASED]] {
        assert!(of(&[step(0, 4), step(1, 6)], &faulty).is_err(), "{faulty:?}");
    }
}
