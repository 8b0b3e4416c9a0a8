//! The plain machine of document 01 ("The interview", refusals 1 to 12): every call of a session over lent words of any
//! length and content, with rows having and lacking what their marks imply (request 5/13), with the no in two calls, test
//! and filing (request 6/13), and with marks filled in (request 7/13). A refused call changes nothing.

use crate::sets::{self, Pair};

pub const MAX_PROPERTIES: usize = 64;
pub const MAX_ROW_WORDS: usize = 1024;
pub const MAX_RULE_WORDS: usize = 512;

pub const FINISHED: u64 = 100;
pub const MOVED: u64 = 101;
pub const ASKED: u64 = 102;
pub const ACCEPTED: u64 = 103;
pub const FOLLOWS: u64 = 104;
pub const REFUTED: u64 = 105;
pub const UNREFUTED: u64 = 106;
pub const UNKNOWN_KIND: u64 = 107;
pub const REFUTES: u64 = 108;

/// The words of a call in a log, its kind and three arguments, and those of its answer.
pub const CALL_WORDS: usize = 4;
pub const ANSWER_WORDS: usize = 3;

#[repr(C)]
#[derive(Clone, Copy, Debug, PartialEq, Eq)]
pub struct Record {
    pub n: usize,
    pub rows: usize,
    pub rules: usize,
    pub current: u64,
}

/// A refusal has its number as code and its place as first word.
#[repr(C)]
#[derive(Clone, Copy, Debug, PartialEq, Eq)]
pub struct Answer {
    pub code: u64,
    pub first: u64,
    pub second: u64,
}

impl Answer {
    pub fn new(code: u64, first: u64, second: u64) -> Answer {
        Answer { code, first, second }
    }

    pub fn accepted() -> Answer {
        Answer::new(ACCEPTED, 0, 0)
    }

    pub fn refusal(number: u64, place: usize) -> Answer {
        Answer::new(number, place as u64, 0)
    }
}

/// The lent words of a call.
struct Lent<'a> {
    rows: &'a [u64],
    list: &'a [u64],
    background: &'a [u64],
}

/// What the lent words hold in use, the checks that every call makes passed.
struct Held {
    n: usize,
    rows: Vec<Pair>,
    /// The rules in force.
    rules: Vec<Pair>,
}

fn pairs(words: &[u64]) -> impl Iterator<Item = Pair> + '_ {
    words.chunks_exact(2).map(|pair| (pair[0], pair[1]))
}

fn odd_or_above(words: &[u64], limit: usize) -> bool {
    words.len() % 2 == 1 || words.len() > limit
}

/// The lowest row whose yes marks have a closure that meets its no marks.
fn contradicted(rows: &[Pair], rules: &[Pair]) -> Option<usize> {
    rows.iter().position(|&(yes, no)| sets::closure(rules, yes) & no != 0)
}

/// Checks 1 to 6. `loose` are the other sets that check 4 tests: a rule asked about, the current set, a premise.
fn check(n: usize, rows_used: usize, rules_used: usize, lent: &Lent, loose: &[u64]) -> Result<Held, Answer> {
    if !(1..=MAX_PROPERTIES).contains(&n) {
        return Err(Answer::refusal(1, 0));
    }
    if odd_or_above(lent.rows, MAX_ROW_WORDS)
        || odd_or_above(lent.list, MAX_RULE_WORDS)
        || odd_or_above(lent.background, MAX_RULE_WORDS)
    {
        return Err(Answer::refusal(2, 0));
    }
    if rows_used > lent.rows.len() / 2 || rules_used > lent.list.len() / 2 {
        return Err(Answer::refusal(3, 0));
    }
    let (row_words, list_words) = (&lent.rows[..2 * rows_used], &lent.list[..2 * rules_used]);
    let outside = !sets::all(n);
    if [row_words, list_words, lent.background, loose].into_iter().flatten().any(|word| word & outside != 0) {
        return Err(Answer::refusal(4, 0));
    }
    let rows: Vec<Pair> = pairs(row_words).collect();
    if let Some(place) = rows.iter().position(|(yes, no)| yes & no != 0) {
        return Err(Answer::refusal(5, place));
    }
    let rules: Vec<Pair> = pairs(lent.background).chain(pairs(list_words)).collect();
    if let Some(place) = contradicted(&rows, &rules) {
        return Err(Answer::refusal(6, place));
    }
    Ok(Held { n, rows, rules })
}

/// The rows of a call that has no rules, by checks 1 to 5: check 6 finds nothing that 5 has not found. `loose` as above.
pub fn rows_in_use(n: usize, used: usize, rows: &[u64], loose: &[u64]) -> Result<Vec<Pair>, Answer> {
    check(n, used, 0, &Lent { rows, list: &[], background: &[] }, loose).map(|held| held.rows)
}

/// Checks 1 to 7 of a call after the opening, with the rule that it asks about.
fn check_session(record: &Record, lent: &Lent, asked: &[u64]) -> Result<Held, Answer> {
    let loose = [asked, &[record.current]].concat();
    let held = check(record.n, record.rows, record.rules, lent, &loose)?;
    if sets::closure(&held.rules, record.current) != record.current {
        return Err(Answer::refusal(7, 0));
    }
    Ok(held)
}

impl Held {
    /// The premise and conclusion that a step would ask about, if it would ask.
    fn question(&self, current: u64) -> Option<Pair> {
        let reach = sets::implied_reach(&self.rules, &self.rows, self.n, current);
        (current != sets::all(self.n) && reach != current).then_some((current, reach & !current))
    }

    fn next(&self, current: u64) -> u64 {
        sets::next(&self.rules, self.n, current).expect("a set before the last has a next one")
    }

    /// Check 9 of an offered row.
    fn check_offered(&self, (yes, no): Pair) -> Result<(), Answer> {
        if (yes | no) & !sets::all(self.n) != 0 || yes & no != 0 {
            return Err(Answer::refusal(9, 0));
        }
        Ok(())
    }

    /// Whether an offered row refutes the standing question.
    fn test(&self, record: &Record, offered: Pair) -> Result<Answer, Answer> {
        let question = self.question(record.current).ok_or(Answer::refusal(8, 0))?;
        self.check_offered(offered)?;
        if !sets::implied_refutes(&self.rules, self.n, offered, question) {
            return Err(Answer::refusal(10, 0));
        }
        Ok(Answer::new(REFUTES, 0, 0))
    }

    /// Makes an offered row the next row.
    fn file(&self, record: &mut Record, rows: &mut [u64], offered: Pair) -> Result<Answer, Answer> {
        self.check_offered(offered)?;
        if contradicted(&[offered], &self.rules).is_some() {
            return Err(Answer::refusal(11, 0));
        }
        let at = 2 * record.rows;
        if at == rows.len() {
            return Err(Answer::refusal(12, 0));
        }
        (rows[at], rows[at + 1]) = offered;
        record.rows += 1;
        Ok(Answer::accepted())
    }

    /// Adds offered marks to a row in use.
    fn fill(&self, rows: &mut [u64], row: usize, offered: Pair) -> Result<Answer, Answer> {
        let &(yes, no) = self.rows.get(row).ok_or(Answer::refusal(32, 0))?;
        self.check_offered(offered)?;
        if yes & offered.1 != 0 || no & offered.0 != 0 {
            return Err(Answer::refusal(33, 0));
        }
        let filled = (yes | offered.0, no | offered.1);
        if contradicted(&[filled], &self.rules).is_some() {
            return Err(Answer::refusal(11, 0));
        }
        (rows[2 * row], rows[2 * row + 1]) = filled;
        Ok(Answer::accepted())
    }
}

fn settle(attempt: impl FnOnce() -> Result<Answer, Answer>) -> Answer {
    attempt().unwrap_or_else(|refusal| refusal)
}

pub fn open(record: &mut Record, n: usize, used: usize, rows: &[u64], list: &[u64], background: &[u64]) -> Answer {
    settle(|| {
        let held = check(n, used, 0, &Lent { rows, list, background }, &[])?;
        *record = Record { n, rows: used, rules: 0, current: sets::closure(&held.rules, 0) };
        Ok(Answer::accepted())
    })
}

pub fn step(record: &mut Record, rows: &[u64], list: &[u64], background: &[u64]) -> Answer {
    settle(|| {
        let held = check_session(record, &Lent { rows, list, background }, &[])?;
        if record.current == sets::all(record.n) {
            return Ok(Answer::new(FINISHED, 0, 0));
        }
        if let Some((premise, conclusion)) = held.question(record.current) {
            return Ok(Answer::new(ASKED, premise, conclusion));
        }
        record.current = held.next(record.current);
        Ok(Answer::new(MOVED, 0, 0))
    })
}

pub fn yes(record: &mut Record, rows: &[u64], list: &mut [u64], background: &[u64]) -> Answer {
    settle(|| {
        let mut held = check_session(record, &Lent { rows, list, background }, &[])?;
        let question = held.question(record.current).ok_or(Answer::refusal(8, 0))?;
        held.rules.push(question);
        if let Some(place) = contradicted(&held.rows, &held.rules) {
            return Err(Answer::refusal(11, place));
        }
        let at = 2 * record.rules;
        if at == list.len() {
            return Err(Answer::refusal(12, 0));
        }
        (list[at], list[at + 1]) = question;
        record.rules += 1;
        record.current = held.next(record.current);
        Ok(Answer::accepted())
    })
}

pub fn test(record: &Record, rows: &[u64], list: &[u64], background: &[u64], offered: Pair) -> Answer {
    settle(|| check_session(record, &Lent { rows, list, background }, &[])?.test(record, offered))
}

pub fn file(record: &mut Record, rows: &mut [u64], list: &[u64], background: &[u64], offered: Pair) -> Answer {
    settle(|| check_session(record, &Lent { rows, list, background }, &[])?.file(record, rows, offered))
}

pub fn fill(record: &Record, rows: &mut [u64], list: &[u64], background: &[u64], row: usize, offered: Pair) -> Answer {
    settle(|| check_session(record, &Lent { rows, list, background }, &[])?.fill(rows, row, offered))
}

/// The test and the filing in turn.
pub fn no(record: &mut Record, rows: &mut [u64], list: &[u64], background: &[u64], offered: Pair) -> Answer {
    settle(|| {
        let held = check_session(record, &Lent { rows, list, background }, &[])?;
        held.test(record, offered)?;
        held.file(record, rows, offered)
    })
}

pub fn follows(record: &Record, rows: &[u64], list: &[u64], background: &[u64], rule: Pair) -> Answer {
    settle(|| {
        let held = check_session(record, &Lent { rows, list, background }, &[rule.0, rule.1])?;
        let follows = rule.1 & !sets::closure(&held.rules, rule.0) == 0;
        Ok(Answer::new(FOLLOWS, follows.into(), 0))
    })
}

pub fn refuted(record: &Record, rows: &[u64], list: &[u64], background: &[u64], rule: Pair) -> Answer {
    settle(|| {
        let held = check_session(record, &Lent { rows, list, background }, &[rule.0, rule.1])?;
        Ok(match held.rows.iter().position(|&row| sets::implied_refutes(&held.rules, held.n, row, rule)) {
            Some(place) => Answer::new(REFUTED, place as u64, 0),
            None => Answer::new(UNREFUTED, 0, 0),
        })
    })
}

/// Makes the calls of a log and writes down their answers. Words after the last whole call are ignored.
pub fn replay(
    record: &mut Record,
    rows: &mut [u64],
    list: &mut [u64],
    background: &[u64],
    calls: &[u64],
    answers: &mut [u64],
) -> Answer {
    let calls = calls.chunks_exact(CALL_WORDS);
    if answers.len() / ANSWER_WORDS < calls.len() {
        return Answer::refusal(3, 0);
    }
    for (call, written) in calls.zip(answers.chunks_exact_mut(ANSWER_WORDS)) {
        let pair = (call[1], call[2]);
        let answer = match call[0] {
            0 => step(record, rows, list, background),
            1 => yes(record, rows, list, background),
            2 => no(record, rows, list, background, pair),
            3 => follows(record, rows, list, background, pair),
            4 => refuted(record, rows, list, background, pair),
            5 => test(record, rows, list, background, pair),
            6 => file(record, rows, list, background, pair),
            7 => fill(record, rows, list, background, call[1] as usize, (call[2], call[3])),
            _ => Answer::new(UNKNOWN_KIND, 0, 0),
        };
        written.copy_from_slice(&[answer.code, answer.first, answer.second]);
    }
    Answer::accepted()
}

/// Opens a session and makes a log of calls on it. Nothing is done where the opening is refused or the answers have no room.
pub fn open_and_replay(
    record: &mut Record,
    (n, used): (usize, usize),
    rows: &mut [u64],
    list: &mut [u64],
    background: &[u64],
    calls: &[u64],
    answers: &mut [u64],
) -> Answer {
    let mut opened = *record;
    let opening = open(&mut opened, n, used, rows, list, background);
    if opening != Answer::accepted() {
        return opening;
    }
    let answer = replay(&mut opened, rows, list, background, calls, answers);
    if answer == Answer::accepted() {
        *record = opened;
    }
    answer
}
