//! Scripts of listings: what nearly always holds in rows that lie near the percentage, from whole and from damaged calls.

use crate::Tally;
use crate::fenced::{FENCE_ANSWER, FENCE_WORD, Fenced};
use crate::library::zundrafl_nearly;
use crate::machine::{ACCEPTED, Answer, MAX_PROPERTIES, MAX_ROW_WORDS};
use crate::nearly::{self, MAX_PERCENT};
use crate::random::Random;
use crate::sets;
use crate::table::MAX_ROWS;
use crate::{hex, show};

/// The call with the codes that it can give. The accepted ones are counted again: those that list something or nothing,
/// with a premise that no row has, and with a property that has just the percentage and so is not listed.
pub const KINDS: &[(&str, &[u64])] = &[
    ("nearly", &[1, 2, 3, 4, 5, 31, ACCEPTED]),
    (SOME, &[ACCEPTED]),
    (NONE, &[ACCEPTED]),
    (NOWHERE, &[ACCEPTED]),
    (AT_LIMIT, &[ACCEPTED]),
];

const SOME: &str = "some listed";
const NONE: &str = "none listed";
const NOWHERE: &str = "in no row";
const AT_LIMIT: &str = "at the limit";

/// The calls of a script, each like its first.
const CALLS: usize = 12;

#[derive(Clone)]
struct Call {
    n: usize,
    used: usize,
    rows: Vec<u64>,
    premise: u64,
    percent: u64,
}

/// What a call answers and leaves.
#[derive(PartialEq)]
struct Outcome {
    answer: Answer,
    rows: Vec<u64>,
    /// Nothing outside the lent memory was written.
    inside: bool,
}

fn by_model(call: &Call) -> Outcome {
    let answer = nearly::nearly(call.n, call.used, &call.rows, call.premise, call.percent);
    Outcome { answer, rows: call.rows.clone(), inside: true }
}

fn by_library(call: &Call) -> Outcome {
    let mut rows = Fenced::new(&call.rows, FENCE_WORD);
    let mut answer = Fenced::new(&[FENCE_ANSWER], FENCE_ANSWER);
    let ((r, r_len), a) = (rows.lend(), answer.lend().0.cast());
    // SAFETY: each pointer leads to as many elements as its length says, and all of them outlive the call.
    unsafe { zundrafl_nearly(call.n, call.used, r, r_len, call.premise, call.percent, a) };
    Outcome { answer: answer.content()[0], rows: rows.content().to_vec(), inside: rows.intact() && answer.intact() }
}

fn show_call(call: &Call) -> String {
    let Call { n, used, rows, premise, percent } = call;
    format!("nearly, n {n}, rows in use {used}, premise {premise:#x}, percentage {percent}\n  rows {}\n", hex(rows))
}

fn show_outcome(outcome: &Outcome, before: &Call) -> String {
    let changed = if outcome.rows == before.rows { "" } else { "  the row words were changed\n" };
    let outside = if outcome.inside { "" } else { "  written outside the lent memory\n" };
    format!("  answer {}\n{changed}{outside}", show(&outcome.answer))
}

/// The rows in use that are marked yes in a set.
fn having(call: &Call, set: u64) -> usize {
    call.rows.chunks_exact(2).take(call.used).filter(|row| set & !row[0] == 0).count()
}

/// Whether rows have the premise, and some property in just the percentage of them.
fn at_limit(call: &Call) -> bool {
    let limit = call.percent as usize * having(call, call.premise);
    let mut outside = (0..call.n).map(|i| 1 << i).filter(|property| call.premise & property == 0);
    having(call, call.premise) > 0 && outside.any(|property| 100 * having(call, call.premise | property) == limit)
}

struct Script<'a> {
    random: Random,
    tally: &'a mut Tally,
}

pub fn play(random: Random, tally: &mut Tally) -> Result<(), String> {
    let mut script = Script { random, tally };
    let start = script.start();
    script.call(&start)?;
    for _ in 1..CALLS {
        let mut call = start.clone();
        if script.chance(2) {
            call.percent = script.percent();
        }
        if script.chance(2) {
            call.premise = script.any_premise(&call);
        }
        for _ in 0..[0, 0, 1, 1, 2, 3][script.random.below(6)] {
            script.damage(&mut call);
        }
        script.call(&call)?;
    }
    Ok(())
}

impl Script<'_> {
    fn chance(&mut self, one_in: usize) -> bool {
        self.random.below(one_in) == 0
    }

    /// Makes a call by library and model.
    fn call(&mut self, call: &Call) -> Result<(), String> {
        if self.tally.loud {
            print!("{}", show_call(call));
        }
        let expected = by_model(call);
        let found = by_library(call);
        if found != expected {
            let (model, library) = (show_outcome(&expected, call), show_outcome(&found, call));
            return Err(format!("failing call:\n{}model:\n{model}library:\n{library}", show_call(call)));
        }
        let Answer { code, first, .. } = expected.answer;
        self.tally.add("nearly", code);
        if code == ACCEPTED {
            self.tally.add(if first == 0 { NONE } else { SOME }, code);
            if having(call, call.premise) == 0 {
                self.tally.add(NOWHERE, code);
            }
            if at_limit(call) {
                self.tally.add(AT_LIMIT, code);
            }
        }
        Ok(())
    }

    fn percent(&mut self) -> u64 {
        [0, 50, 80, 80, MAX_PERCENT, self.random.word() % 100][self.random.below(6)]
    }

    /// A call in which each property outside the premise has about the percentage of the rows with it.
    fn start(&mut self) -> Call {
        let n = match self.random.below(4) {
            0 => MAX_PROPERTIES,
            1 => 1 + self.random.below(MAX_PROPERTIES),
            _ => 1 + self.random.below(6),
        };
        let all = sets::all(n);
        let percent = self.percent();
        let premise = match self.random.below(5) {
            0 => 0,
            1 => self.random.member(all),
            2 | 3 => self.random.member(all) | self.random.member(all),
            _ => self.random.subset(all),
        };
        // Every percentage of a hundred rows is a number of rows, and 80 per cent of five are.
        let having = match self.random.below(8) {
            0 => self.random.below(5),
            1 => [100, 200, 300, 400, 500, MAX_ROWS][self.random.below(6)],
            2 => self.random.below(MAX_ROWS + 1),
            _ => 5 * (1 + self.random.below(12)),
        };
        let lacking = if premise == 0 { 0 } else { self.random.below(20).min(MAX_ROWS - having) };
        let used = having + lacking;

        let mut yes = vec![premise; having];
        yes.extend((0..lacking).map(|_| self.random.subset(all) & !self.random.member(premise)));
        for property in (0..n).map(|i| 1 << i).filter(|property| premise & property == 0) {
            let limit = percent as usize * having / 100;
            let count = match self.random.below(6) {
                0 => self.random.below(having + 1),
                1 => having,
                2 => limit + 1,
                3 => limit.saturating_sub(1),
                _ => limit,
            };
            let from = self.random.below(having.max(1));
            (0..count.min(having)).for_each(|i| yes[(from + i) % having] |= property);
        }
        for i in 1..used {
            yes.swap(i, self.random.below(i + 1));
        }
        let mut rows: Vec<u64> = yes.into_iter().flat_map(|yes| [yes, self.random.subset(all & !yes)]).collect();
        // Free places with anything in them.
        let more = self.random.below(4).min(MAX_ROWS - used);
        rows.extend(self.random.words(2 * more));
        Call { n, used, rows, premise, percent }
    }

    /// A premise of no property, one, two, many or all, one that a row has, or one with a property outside M.
    fn any_premise(&mut self, call: &Call) -> u64 {
        let all = sets::all(call.n);
        match self.random.below(9) {
            0 => 0,
            1 => self.random.member(all),
            2 | 3 => self.random.member(all) | self.random.member(all),
            4 => self.random.subset(all),
            5 => all,
            6 if !call.rows.is_empty() => {
                let yes = call.rows[2 * self.random.below(call.rows.len() / 2)];
                self.random.subset(yes)
            }
            7 => self.random.subset(all) | self.random.member(!all),
            _ => self.random.word(),
        }
    }

    /// Damages, or nearly damages, one of the things that are lent or said.
    fn damage(&mut self, call: &mut Call) {
        let all = sets::all(call.n);
        match self.random.below(13) {
            0 => call.n = [0, 65, 66, 1 << 32, 1 << 63, usize::MAX][self.random.below(6)],
            1 => call.n = 1 + self.random.below(MAX_PROPERTIES),
            2 | 3 => call.used = self.any_use(call.rows.len() / 2),
            // All places in use, or one less than are in use.
            4 => call.rows.truncate(2 * call.used.min(MAX_ROWS)),
            5 => call.rows.truncate((2 * call.used.min(MAX_ROWS)).saturating_sub(2)),
            6 if self.chance(2) => call.rows.push(self.random.word() & all),
            6 => call.rows.truncate(call.rows.len().saturating_sub(1)),
            7 => call.rows.resize(MAX_ROW_WORDS + self.random.below(5), 0),
            8 if !call.rows.is_empty() => {
                let at = self.random.below(call.rows.len());
                call.rows[at] |= self.random.member(!all);
            }
            // Marked both ways in some rows, in use or not.
            8..11 => {
                for _ in 0..1 + self.random.below(3) {
                    let both = self.random.member(all);
                    let number = self.random.below(call.rows.len() / 2 + 1);
                    if let Some(row) = call.rows.chunks_exact_mut(2).nth(number) {
                        row.iter_mut().for_each(|word| *word |= both);
                    }
                }
            }
            11 => call.premise |= self.random.member(!all),
            _ => call.percent = [100, 101, 256, 1 << 32 | 80, 1 << 63, u64::MAX][self.random.below(6)],
        }
    }

    /// How many of the places are said to be in use.
    fn any_use(&mut self, places: usize) -> usize {
        match self.random.below(8) {
            0 => usize::MAX,
            1 => 1 << 63,
            2 => self.random.word() as usize,
            3 => places,
            4 | 5 => self.random.below(places + 1),
            _ => places + 1,
        }
    }
}
