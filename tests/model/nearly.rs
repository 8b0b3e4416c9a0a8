//! What nearly always holds (request 3/13): the properties that more than a percentage of the rows with a premise have.

use std::cmp::Ordering;

use crate::machine::{self, ACCEPTED, Answer, MAX_PROPERTIES};
use crate::sets::Pair;

pub const MAX_PERCENT: u64 = 99;

/// Each property outside the premise for which 100 times the rows with both exceeds the percentage times the rows with the
/// premise. An unknown mark is not yes.
pub fn listed(n: usize, rows: &[Pair], premise: u64, percent: u64) -> u64 {
    let mut having = 0;
    let mut counts = [0u32; MAX_PROPERTIES];
    for &(yes, _) in rows.iter().filter(|(yes, _)| premise & !yes == 0) {
        having += 1;
        for (i, count) in counts[..n].iter_mut().enumerate() {
            *count += (yes >> i & 1) as u32;
        }
    }
    (0..n)
        .filter(|&i| premise >> i & 1 == 0 && 100 * u64::from(counts[i]) > percent * having)
        .fold(0, |set, i| set | 1 << i)
}

/// The call over lent row words.
pub fn nearly(n: usize, used: usize, rows: &[u64], premise: u64, percent: u64) -> Answer {
    let rows = match machine::rows_in_use(n, used, rows, &[premise]) {
        Ok(rows) => rows,
        Err(refusal) => return refusal,
    };
    if percent > MAX_PERCENT {
        return Answer::refusal(31, 0);
    }
    Answer::new(ACCEPTED, listed(n, &rows, premise, percent), 0)
}

/// The interview's order: of two different sets, the later holds the smallest property in which they differ.
fn order(one: &u64, other: &u64) -> Ordering {
    let differing = one ^ other;
    let smallest = differing & differing.wrapping_neg();
    (one & smallest).cmp(&(other & smallest))
}

/// All sets of one or two of n properties, in the interview's order.
pub fn premises(n: usize) -> Vec<u64> {
    let mut sets: Vec<u64> = (0..n).flat_map(|i| (i..n).map(move |j| 1 << i | 1 << j)).collect();
    sets.sort_by(order);
    sets
}
