//! Scripts of session calls: interviews with truthful and with random replies, filings and fillings, damaged records and words,
//! logs.

use crate::Tally;
use crate::fenced::{FENCE_ANSWER, FENCE_WORD, Fenced};
use crate::library::{
    zundrafl_accept, zundrafl_file_row, zundrafl_fill_row, zundrafl_follows, zundrafl_open_and_replay,
    zundrafl_open_session, zundrafl_refuted, zundrafl_reject, zundrafl_replay, zundrafl_step, zundrafl_test_row,
};
use crate::machine::{
    self, ACCEPTED, ANSWER_WORDS, ASKED, Answer, CALL_WORDS, FINISHED, FOLLOWS, MAX_ROW_WORDS, MAX_RULE_WORDS, REFUTED,
    REFUTES, Record, UNREFUTED,
};
use crate::random::Random;
use crate::sets::{self, Pair};
use crate::{hex, show};

/// The kinds of call, each with the codes that it can give. Logged calls are those that a replay makes.
pub const KINDS: &[(&str, &[u64])] = &[
    ("open", &[1, 2, 3, 4, 5, 6, 103]),
    ("step", &[1, 2, 3, 4, 5, 6, 7, 100, 101, 102]),
    ("yes", &[1, 2, 3, 4, 5, 6, 7, 8, 11, 12, 103]),
    ("no", &[1, 2, 3, 4, 5, 6, 7, 8, 9, 10, 11, 12, 103]),
    ("test", &[1, 2, 3, 4, 5, 6, 7, 8, 9, 10, 108]),
    ("filing", &[1, 2, 3, 4, 5, 6, 7, 9, 11, 12, 103]),
    ("filling", &[1, 2, 3, 4, 5, 6, 7, 9, 11, 32, 33, 103]),
    ("follows", &[1, 2, 3, 4, 5, 6, 7, 104]),
    ("refuted", &[1, 2, 3, 4, 5, 6, 7, 105, 106]),
    ("replay", &[3, 103]),
    ("open and replay", &[1, 2, 3, 4, 5, 6, 103]),
    ("logged", &[1, 2, 3, 4, 5, 6, 7, 8, 9, 10, 11, 12, 32, 33, 100, 101, 102, 103, 104, 105, 106, 107, 108]),
];

/// The filings that come through checks 1 to 7, counted again by whether a question stands, none does, or the current set is
/// M; and once more those after a finished interview, and the rules asked about behind them and behind late fillings.
pub const FILED: &[(&str, &[u64])] = &[
    (FILED_WHEN[0], &[9, 11, 12, 103]),
    (FILED_WHEN[1], &[9, 11, 12, 103]),
    (FILED_WHEN[2], &[9, 11, 12, 103]),
    (FILED_LATE, &[9, 11, 12, 103]),
    (DECIDED_LATE, &[105, 106]),
];

const FILED_WHEN: [&str; 3] = ["filed asked", "filed unasked", "filed at M"];
const FILED_LATE: &str = "filed late";
const DECIDED_LATE: &str = "decided late";

/// The fillings, counted again in the same way. Of those that are taken once more the ones that add no mark, the ones that
/// change what the next step answers, by its answer then, and in honest interviews the ones of rows of the opening and of
/// later rows.
pub const FILLED: &[(&str, &[u64])] = &[
    (FILLED_WHEN[0], &[9, 11, 32, 33, 103]),
    (FILLED_WHEN[1], &[9, 11, 32, 33, 103]),
    (FILLED_WHEN[2], &[9, 11, 32, 33, 103]),
    (FILLED_LATE, &[9, 11, 32, 33, 103]),
    (FILLED_NOTHING, &[103]),
    (FILLED_CHANGE, &[101, 102]),
    (FILLED_FIRST, &[103]),
    (FILLED_LATER, &[103]),
];

const FILLED_WHEN: [&str; 3] = ["filled asked", "filled unasked", "filled at M"];
const FILLED_LATE: &str = "filled late";
const FILLED_NOTHING: &str = "nothing filled";
const FILLED_CHANGE: &str = "step changed";
const FILLED_FIRST: &str = "opened row";
const FILLED_LATER: &str = "later row";

/// Rules asked about twice in an interview, counted by what was said first, that the rule follows, that a row refutes it, or
/// neither, and by what is said then: 104, 105 or 106; those that a row refutes once more where an earlier row is named then.
/// And the questions that came up, by whether one was answered before.
pub const SHOWN: &[(&str, &[u64])] = &[
    (SHOWN_FOLLOWS, &[104]),
    (SHOWN_REFUTED, &[105]),
    (SHOWN_EARLIER, &[105]),
    (SHOWN_OPEN, &[104, 105, 106]),
    (ASKED_FIRST, &[102]),
    (ASKED_NEXT, &[102]),
];

const SHOWN_FOLLOWS: &str = "followed before";
const SHOWN_REFUTED: &str = "refuted before";
const SHOWN_EARLIER: &str = "earlier row";
const SHOWN_OPEN: &str = "open before";
const ASKED_FIRST: &str = "first question";
const ASKED_NEXT: &str = "next question";

/// So many rules at the most are asked about again.
const MAX_SHOWN: usize = 8;

/// The calls that the marks as written would answer otherwise, counted again: steps and yeses by their question, nos and tests
/// by whether the row refutes it, rules by the first row that refutes them. Of the nos and the tests once more those whose row
/// is not marked yes in the whole premise, and those whose row is not marked no in the conclusion, and refutes it all the same.
pub const IMPLIED: &[(&str, &[u64])] = &[
    (IMPLIED_STEP, &[101, 102]),
    (IMPLIED_YES, &[8, 12, 103]),
    (IMPLIED_NO[0], &[8, 10, 11, 12, 103]),
    (IMPLIED_REFUTED, &[105]),
    (IMPLIED_NO[1], &[11, 12, 103]),
    (IMPLIED_NO[2], &[11, 103]),
    (IMPLIED_TEST[0], &[8, 10, 108]),
    (IMPLIED_TEST[1], &[108]),
    (IMPLIED_TEST[2], &[108]),
];

const IMPLIED_STEP: &str = "step implied";
const IMPLIED_YES: &str = "yes implied";
const IMPLIED_NO: [&str; 3] = ["no implied", "premise implied", "lack implied"];
const IMPLIED_TEST: [&str; 3] = ["test implied", "premise tested", "lack tested"];
const IMPLIED_REFUTED: &str = "refuted implied";

/// No interview of a script has more calls than this.
const MAX_CALLS: usize = 500;

const FENCE_RECORD: Record = Record { n: 0xfe4c, rows: 0xfe4c, rules: 0xfe4c, current: FENCE_WORD };

/// The record and the lent words.
#[derive(Clone, PartialEq)]
struct State {
    record: Record,
    rows: Vec<u64>,
    list: Vec<u64>,
    background: Vec<u64>,
}

/// What was said of a rule.
#[derive(Clone, Copy, PartialEq)]
enum Said {
    Follows,
    RefutedBy(u64),
    Neither,
}

#[derive(Clone)]
enum Call {
    Open { n: usize, used: usize },
    Step,
    Yes,
    No(Pair),
    Test(Pair),
    File(Pair),
    Fill(usize, Pair),
    Follows(Pair),
    Refuted(Pair),
    Replay { calls: Vec<u64>, answers: Vec<u64> },
    OpenAndReplay { n: usize, used: usize, calls: Vec<u64>, answers: Vec<u64> },
}

/// What a call answers and leaves.
#[derive(PartialEq)]
struct Outcome {
    answer: Answer,
    state: State,
    calls: Vec<u64>,
    answers: Vec<u64>,
    /// Nothing outside the lent memory was written.
    inside: bool,
}

impl Call {
    fn kind(&self) -> &'static str {
        match self {
            Call::Open { .. } => "open",
            Call::Step => "step",
            Call::Yes => "yes",
            Call::No(_) => "no",
            Call::Test(_) => "test",
            Call::File(_) => "filing",
            Call::Fill(..) => "filling",
            Call::Follows(_) => "follows",
            Call::Refuted(_) => "refuted",
            Call::Replay { .. } => "replay",
            Call::OpenAndReplay { .. } => "open and replay",
        }
    }

    /// The log of a replay and the words for its answers.
    fn log(&self) -> (&[u64], &[u64]) {
        match self {
            Call::Replay { calls, answers } | Call::OpenAndReplay { calls, answers, .. } => (calls, answers),
            _ => (&[], &[]),
        }
    }

    fn show(&self) -> String {
        let kind = self.kind();
        match self {
            Call::Open { n, used } => format!("{kind}, n {n}, rows in use {used}"),
            Call::Step | Call::Yes => kind.to_string(),
            Call::No(pair) | Call::Test(pair) | Call::File(pair) | Call::Follows(pair) | Call::Refuted(pair) => {
                format!("{kind} {:#x} {:#x}", pair.0, pair.1)
            }
            Call::Fill(row, marks) => format!("{kind} of row {row:#x}, {:#x} {:#x}", marks.0, marks.1),
            Call::Replay { calls, answers } => format!("{kind}\n  log {}\n  answers {}", hex(calls), hex(answers)),
            Call::OpenAndReplay { n, used, calls, answers } => {
                let (calls, answers) = (hex(calls), hex(answers));
                format!("{kind}, n {n}, rows in use {used}\n  log {calls}\n  answers {answers}")
            }
        }
    }
}

fn show_state(state: &State) -> String {
    let State { record: Record { n, rows, rules, current }, .. } = state;
    let (row_words, list, background) = (hex(&state.rows), hex(&state.list), hex(&state.background));
    format!(
        "  record n {n}, rows {rows}, rules {rules}, current {current:#x}\n  \
         rows {row_words}\n  list {list}\n  background {background}\n"
    )
}

fn show_outcome(outcome: &Outcome) -> String {
    let Outcome { answer, state, calls, answers, inside } = outcome;
    let outside = if *inside { "" } else { "  written outside the lent memory\n" };
    let (answer, state, calls, answers) = (show(answer), show_state(state), hex(calls), hex(answers));
    format!("  answer {answer}\n{state}  log {calls}\n  answers {answers}\n{outside}")
}

fn by_model(state: &State, call: &Call) -> Outcome {
    let mut state = state.clone();
    let (calls, answers) = call.log();
    let (calls, mut answers) = (calls.to_vec(), answers.to_vec());
    let State { record, rows, list, background } = &mut state;
    let answer = match *call {
        Call::Open { n, used } => machine::open(record, n, used, rows, list, background),
        Call::Step => machine::step(record, rows, list, background),
        Call::Yes => machine::yes(record, rows, list, background),
        Call::No(row) => machine::no(record, rows, list, background, row),
        Call::Test(row) => machine::test(record, rows, list, background, row),
        Call::File(row) => machine::file(record, rows, list, background, row),
        Call::Fill(row, marks) => machine::fill(record, rows, list, background, row, marks),
        Call::Follows(rule) => machine::follows(record, rows, list, background, rule),
        Call::Refuted(rule) => machine::refuted(record, rows, list, background, rule),
        Call::Replay { .. } => machine::replay(record, rows, list, background, &calls, &mut answers),
        Call::OpenAndReplay { n, used, .. } => {
            machine::open_and_replay(record, (n, used), rows, list, background, &calls, &mut answers)
        }
    };
    Outcome { answer, state, calls, answers, inside: true }
}

fn by_library(state: &State, call: &Call) -> Outcome {
    let words = |content: &[u64]| Fenced::new(content, FENCE_WORD);
    let mut session = Fenced::new(&[state.record], FENCE_RECORD);
    let mut answer = Fenced::new(&[FENCE_ANSWER], FENCE_ANSWER);
    let (mut rows, mut list, mut background) = (words(&state.rows), words(&state.list), words(&state.background));
    let (mut calls, mut answers) = (words(call.log().0), words(call.log().1));

    let (s, a) = (session.lend().0.cast(), answer.lend().0.cast());
    let ((r, r_len), (l, l_len), (b, b_len)) = (rows.lend(), list.lend(), background.lend());
    let ((c, c_len), (w, w_len)) = (calls.lend(), answers.lend());
    // SAFETY: each pointer leads to as many elements as its length says, and all of them outlive the call.
    unsafe {
        match *call {
            Call::Open { n, used } => zundrafl_open_session(s, n, used, r, r_len, l, l_len, b, b_len, a),
            Call::Step => zundrafl_step(s, r, r_len, l, l_len, b, b_len, a),
            Call::Yes => zundrafl_accept(s, r, r_len, l, l_len, b, b_len, a),
            Call::No((yes, no)) => zundrafl_reject(s, r, r_len, l, l_len, b, b_len, yes, no, a),
            Call::Test((yes, no)) => zundrafl_test_row(s, r, r_len, l, l_len, b, b_len, yes, no, a),
            Call::File((yes, no)) => zundrafl_file_row(s, r, r_len, l, l_len, b, b_len, yes, no, a),
            Call::Fill(row, (yes, no)) => zundrafl_fill_row(s, r, r_len, l, l_len, b, b_len, row, yes, no, a),
            Call::Follows((premise, conclusion)) => {
                zundrafl_follows(s, r, r_len, l, l_len, b, b_len, premise, conclusion, a)
            }
            Call::Refuted((premise, conclusion)) => {
                zundrafl_refuted(s, r, r_len, l, l_len, b, b_len, premise, conclusion, a)
            }
            Call::Replay { .. } => zundrafl_replay(s, r, r_len, l, l_len, b, b_len, c, c_len, w, w_len, a),
            Call::OpenAndReplay { n, used, .. } => {
                zundrafl_open_and_replay(s, n, used, r, r_len, l, l_len, b, b_len, c, c_len, w, w_len, a)
            }
        }
    }

    let inside = session.intact()
        && answer.intact()
        && [&rows, &list, &background, &calls, &answers].into_iter().all(Fenced::intact);
    Outcome {
        answer: answer.content()[0],
        state: State {
            record: session.content()[0],
            rows: rows.content().to_vec(),
            list: list.content().to_vec(),
            background: background.content().to_vec(),
        },
        calls: calls.content().to_vec(),
        answers: answers.content().to_vec(),
        inside,
    }
}

/// A row tested, and filed where it refutes the question.
fn in_turn(make: fn(&State, &Call) -> Outcome, state: &State, row: Pair) -> Outcome {
    let tested = make(state, &Call::Test(row));
    if tested.answer.code != REFUTES {
        return tested;
    }
    let filed = make(&tested.state, &Call::File(row));
    Outcome { inside: tested.inside && filed.inside, ..filed }
}

/// What a step asks, with an empty conclusion where it does not.
fn standing(state: &State) -> Pair {
    let Answer { code, first, second } = by_model(state, &Call::Step).answer;
    if code == ASKED { (first, second) } else { (state.record.current, 0) }
}

/// What a step asks, or what it might ask where it does not.
fn question(state: &State) -> Pair {
    let (current, conclusion) = standing(state);
    (current, if conclusion == 0 { sets::all(state.record.n) & !current } else { conclusion })
}

fn pairs(words: &[u64], used: usize) -> Vec<Pair> {
    words.chunks_exact(2).take(used).map(|pair| (pair[0], pair[1])).collect()
}

fn in_force(state: &State) -> Vec<Pair> {
    [pairs(&state.background, usize::MAX), pairs(&state.list, state.record.rules)].concat()
}

/// The marked cases of implied marks, and the order of a filling's refusals, each in the current set {0} with one row in use
/// of two: n, the background rule, the row, a reply, a test or a filling, and the number that it is refused with, at place 0.
const MARKED: [(usize, Pair, Pair, Call, u64); 11] = [
    (3, (0b011, 0b100), (0b001, 0b100), Call::Yes, 8),
    (3, (0b011, 0b100), (0b001, 0b100), Call::No((0b001, 0b010)), 8),
    (3, (0b011, 0b100), (0b001, 0b100), Call::Test((0b001, 0b010)), 8),
    (4, (0b0111, 0b1000), (0b0001, 0b1000), Call::Yes, 11),
    (3, (0b011, 0b100), (0b001, 0b100), Call::Fill(1, (0b1000, 0b001)), 32),
    (3, (0b011, 0b100), (0b001, 0b100), Call::Fill(1 << 63, (0, 0)), 32),
    (3, (0b011, 0b100), (0b001, 0b100), Call::Fill(0, (0b1000, 0b001)), 9),
    (3, (0b011, 0b100), (0b001, 0b100), Call::Fill(0, (0b110, 0b010)), 9),
    (3, (0b011, 0b100), (0b001, 0b100), Call::Fill(0, (0b010, 0b001)), 33),
    (3, (0b011, 0b100), (0b001, 0b100), Call::Fill(0, (0b110, 0)), 33),
    (3, (0b011, 0b100), (0b001, 0b100), Call::Fill(0, (0b010, 0)), 11),
];

pub fn check_marked() -> Result<(), String> {
    for (n, rule, row, reply, number) in MARKED {
        let state = State {
            record: Record { n, rows: 1, rules: 0, current: 0b1 },
            rows: vec![row.0, row.1, 0, 0],
            list: vec![0, 0],
            background: vec![rule.0, rule.1],
        };
        for (who, outcome) in [("model", by_model(&state, &reply)), ("library", by_library(&state, &reply))] {
            if outcome.answer != Answer::refusal(number, 0) || outcome.state != state {
                let (reply, state, outcome) = (reply.show(), show_state(&state), show_outcome(&outcome));
                return Err(format!("{reply}\n{state}wanted: refused with {number} at 0\n{who}:\n{outcome}"));
            }
        }
    }
    Ok(())
}

struct Script<'a> {
    random: Random,
    tally: &'a mut Tally,
    state: State,
    /// The complete table that truthful replies, filings and fillings come from.
    truth: Vec<Pair>,
    /// The rows of the accepted opening that the session comes from.
    opened: Option<usize>,
    /// The rules that were asked about since the opening, with what was said of them last.
    shown: Vec<(Pair, Said)>,
    /// The questions that were answered since the opening.
    answered: Vec<Pair>,
    /// The calls before, for the report of a failure.
    played: Vec<(Call, Answer)>,
}

pub fn play(mut random: Random, tally: &mut Tally) -> Result<(), String> {
    let record =
        Record { n: random.below(99), rows: random.below(99), rules: random.below(99), current: random.word() };
    let state = State { record, rows: vec![], list: vec![], background: vec![] };
    let mut script =
        Script { random, tally, state, truth: vec![], opened: None, shown: vec![], answered: vec![], played: vec![] };
    match script.random.below(5) {
        0 => {
            script.make_soup();
            script.drive(9, 2, false)
        }
        1 => {
            script.make_middle();
            script.drive(18, 2, true)
        }
        2 => {
            script.make_unsure();
            script.drive(30, 2, true)
        }
        _ => {
            let (noise, honest) = (3 + script.random.below(40), script.random.below(2) == 0);
            let call = script.make_start();
            script.call_damaged(call.clone())?;
            script.state = script.call(script.state.clone(), call)?.state;
            script.opened = Some(script.state.record.rows);
            script.drive(MAX_CALLS, noise, honest)
        }
    }
}

impl Script<'_> {
    fn chance(&mut self, one_in: usize) -> bool {
        self.random.below(one_in) == 0
    }

    /// A complete row over M.
    fn complete_row(&mut self, all: u64) -> Pair {
        let yes = self.random.subset(all);
        (yes, all & !yes)
    }

    /// Words for some places more than those in use, with anything in them.
    fn lent(&mut self, used: &[Pair], more: usize, limit: usize) -> Vec<u64> {
        let mut words: Vec<u64> = used.iter().flat_map(|&(first, second)| [first, second]).collect();
        let length = (words.len() + 2 * more).min(limit);
        let rest = self.random.words(length - words.len());
        words.extend(rest);
        words
    }

    /// Free places: few, plenty, or all.
    fn places(&mut self) -> usize {
        match self.random.below(8) {
            0..3 => self.random.below(4),
            3..7 => 50 + self.random.below(100),
            _ => MAX_ROW_WORDS,
        }
    }

    /// The start of an interview: background and rows that the complete table agrees with. Returns its opening.
    fn make_start(&mut self) -> Call {
        let n = match self.random.below(8) {
            0 => 64,
            1 => 7 + self.random.below(57),
            _ => 1 + self.random.below(6),
        };
        let all = sets::all(n);
        let count = self.random.below(if n > 6 { 6 } else { 16 });
        self.truth = (0..count).map(|_| self.complete_row(all)).collect();
        let mut background = vec![];
        for _ in 0..self.random.below(5) {
            // Few properties are had by many rows.
            let premise = match self.random.below(2) {
                0 => self.random.member(all) | self.random.member(all),
                _ => self.random.subset(all),
            };
            let conclusion = self.random.subset(sets::reach(&self.truth, n, premise));
            background.push((premise, conclusion));
        }
        let mut rows = vec![];
        for _ in 0..if count == 0 { 0 } else { self.random.below(4) } {
            let (yes, no) = self.truth[self.random.below(count)];
            rows.push((self.random.subset(yes), self.random.subset(no)));
        }
        let (row_places, list_places) = (self.places(), self.places());
        self.state.rows = self.lent(&rows, row_places, MAX_ROW_WORDS);
        self.state.list = self.lent(&[], list_places, MAX_RULE_WORDS);
        self.state.background = self.lent(&background, 0, MAX_RULE_WORDS);
        Call::Open { n, used: rows.len() }
    }

    /// A number up to a limit, often close to it.
    fn up_to(&mut self, limit: usize) -> usize {
        if self.chance(2) { limit - self.random.below(2) } else { self.random.below(limit + 1) }
    }

    /// The middle of a longer interview: rows from a system of closed sets.
    fn make_middle(&mut self) {
        let n = if self.chance(2) { 64 } else { 7 + self.random.below(57) };
        let all = sets::all(n);
        let (max_rows, max_rules) = if self.chance(20) { (512, 256) } else { (40, 12) };
        let (rows, list, background) = (self.up_to(max_rows), self.up_to(max_rules), self.up_to(max_rules));
        let members = 2 + self.random.below(8);
        let rules: Vec<Pair> = (0..list + background)
            .map(|_| {
                let premise = (0..members).fold(0, |set, _| set | self.random.member(all));
                (premise, self.random.member(all) | self.random.member(all))
            })
            .collect();
        let closed = |random: &mut Random| sets::closure(&rules, random.subset(all) & random.subset(all));
        self.truth = (0..rows).map(|_| closed(&mut self.random)).map(|yes| (yes, all & !yes)).collect();
        let current = closed(&mut self.random);
        // In half of the interviews yes marks are unknown, too.
        let known = if self.chance(2) { all } else { 0 };
        let marks = |&(yes, no): &Pair| (yes & known | self.random.subset(yes), self.random.subset(no));
        let rows: Vec<Pair> = self.truth.iter().map(marks).collect();
        self.state.record = Record { n, rows: rows.len(), rules: list, current };
        let (row_places, list_places) = (self.places(), self.places());
        self.state.rows = self.lent(&rows, row_places, MAX_ROW_WORDS);
        self.state.list = self.lent(&rules[..list], list_places, MAX_RULE_WORDS);
        self.state.background = self.lent(&rules[list..], 0, MAX_RULE_WORDS);
    }

    /// Some members of a set, up to three.
    fn few(&mut self, of: u64) -> u64 {
        (0..1 + self.random.below(3)).fold(0, |set, _| set | self.random.member(of))
    }

    /// The middle of a short interview with few marks: rows have and lack what the rules imply.
    fn make_unsure(&mut self) {
        let n = 3 + self.random.below(6);
        let all = sets::all(n);
        let rules: Vec<Pair> = (0..1 + self.random.below(6)).map(|_| (self.few(all), self.few(all))).collect();
        let closed = |random: &mut Random| sets::closure(&rules, random.subset(all));
        let count = 1 + self.random.below(6);
        self.truth = (0..count).map(|_| closed(&mut self.random)).map(|yes| (yes, all & !yes)).collect();
        let marked = self.random.below(count + 1);
        let rows: Vec<Pair> = (0..marked).map(|i| (self.few(self.truth[i].0), self.few(self.truth[i].1))).collect();
        // Often a set that some row has.
        let current = match rows.last() {
            Some(row) if self.chance(2) => sets::closure(&rules, self.random.subset(row.0)),
            _ => closed(&mut self.random),
        };
        let list = self.random.below(rules.len() + 1);
        self.state.record = Record { n, rows: rows.len(), rules: list, current };
        let (row_places, list_places) = (self.places(), self.places());
        self.state.rows = self.lent(&rows, row_places, MAX_ROW_WORDS);
        self.state.list = self.lent(&rules[..list], list_places, MAX_RULE_WORDS);
        self.state.background = self.lent(&rules[list..], 0, MAX_RULE_WORDS);
    }

    /// Anything over a few properties.
    fn make_soup(&mut self) {
        let n = 1 + self.random.below(3);
        let all = sets::all(n);
        let outside = if self.chance(8) { all + 1 } else { 0 };
        let some_rules = |random: &mut Random| -> Vec<Pair> {
            (0..random.below(3)).map(|_| (random.subset(all), random.subset(all | outside))).collect()
        };
        let (list, background) = (some_rules(&mut self.random), some_rules(&mut self.random));
        let mut rows = vec![];
        for _ in 0..self.random.below(4) {
            let yes = self.random.subset(all | outside);
            let no = self.random.subset(all);
            rows.push(if self.chance(8) { (yes, no) } else { (yes, no & !yes) });
        }
        let rules = [background.as_slice(), &list].concat();
        let some = self.random.subset(all | outside);
        let current = if self.chance(4) { some } else { sets::closure(&rules, some) };
        self.truth = (0..self.random.below(3)).map(|_| self.complete_row(all)).collect();
        self.state.record = Record { n, rows: rows.len(), rules: list.len(), current };
        let (row_places, list_places) = (self.random.below(3), self.random.below(3));
        self.state.rows = self.lent(&rows, row_places, MAX_ROW_WORDS);
        self.state.list = self.lent(&list, list_places, MAX_RULE_WORDS);
        self.state.background = self.lent(&background, 0, MAX_RULE_WORDS);
    }

    /// Makes a call by library and model from the same state.
    fn call(&mut self, state: State, call: Call) -> Result<Outcome, String> {
        if self.tally.loud {
            print!("{}\n{}", call.show(), show_state(&state));
        }
        let expected = by_model(&state, &call);
        let found = by_library(&state, &call);
        if found != expected {
            return Err(self.report(&state, &call, &expected, "library", &found));
        }
        if let Call::No(row) = call {
            for (who, found) in [
                ("test and filing by the model", in_turn(by_model, &state, row)),
                ("test and filing by the library", in_turn(by_library, &state, row)),
            ] {
                if found != expected {
                    return Err(self.report(&state, &call, &expected, who, &found));
                }
            }
        }
        self.tally.add(call.kind(), expected.answer.code);
        self.tally_when(&state, &call, &expected.answer);
        self.tally_filled(&state, &call, &expected);
        self.tally_implied(&state, &call, &expected.answer);
        if matches!(call, Call::Replay { .. }) && expected.answer == Answer::accepted() {
            let count = expected.calls.len() / CALL_WORDS;
            for answer in expected.answers.chunks_exact(ANSWER_WORDS).take(count) {
                self.tally.add("logged", answer[0]);
            }
        }
        self.played.push((call, expected.answer));
        Ok(expected)
    }

    /// Counts a filing or a filling again by what stands.
    fn tally_when(&mut self, state: &State, call: &Call, answer: &Answer) {
        let [asked, unasked, at_m] = match call {
            Call::File(_) => FILED_WHEN,
            Call::Fill(..) => FILLED_WHEN,
            _ => return,
        };
        if answer.code < 9 {
            return;
        }
        let kind = match standing(state) {
            (current, _) if current == sets::all(state.record.n) => at_m,
            (_, 0) => unasked,
            _ => asked,
        };
        self.tally.add(kind, answer.code);
    }

    /// Counts an accepted filling again by what it does.
    fn tally_filled(&mut self, state: &State, call: &Call, outcome: &Outcome) {
        if !matches!(call, Call::Fill(..)) || outcome.answer.code != ACCEPTED {
            return;
        }
        if outcome.state == *state {
            self.tally.add(FILLED_NOTHING, ACCEPTED);
        }
        let [before, after] = [state, &outcome.state].map(|state| by_model(state, &Call::Step).answer);
        if after != before {
            self.tally.add(FILLED_CHANGE, after.code);
        }
    }

    /// Counts an answer again if the marks as written would not give it.
    fn tally_implied(&mut self, state: &State, call: &Call, answer: &Answer) {
        let code = answer.code;
        if code < 8 {
            return;
        }
        let Record { n, rows, current, .. } = state.record;
        let rows = pairs(&state.rows, rows);
        let written = (current, sets::reach(&rows, n, current) & !current);
        match *call {
            Call::Step | Call::Yes => {
                let kind = if matches!(call, Call::Step) { IMPLIED_STEP } else { IMPLIED_YES };
                if standing(state) != written {
                    self.tally.add(kind, code);
                }
            }
            Call::No(row) | Call::Test(row) => {
                let [refuting, premise, lack] = if matches!(call, Call::No(_)) { IMPLIED_NO } else { IMPLIED_TEST };
                let by_written = match written.1 {
                    0 => 8,
                    _ if sets::refutes(row, written) => 11,
                    _ => 10,
                };
                // 9 is the same by both; all that comes after 10 has passed it.
                if code != 9 && code.min(11) != by_written {
                    self.tally.add(refuting, code);
                }
                if code > 10 && current & !row.0 != 0 {
                    self.tally.add(premise, code);
                }
                if code > 10 && standing(state).1 & row.1 == 0 {
                    self.tally.add(lack, code);
                }
            }
            Call::Refuted(rule) => {
                let first = rows.iter().position(|&row| sets::refutes(row, rule));
                if code == REFUTED && first.map(|row| row as u64) != Some(answer.first) {
                    self.tally.add(IMPLIED_REFUTED, code);
                }
            }
            _ => {}
        }
    }

    fn report(&self, state: &State, call: &Call, expected: &Outcome, who: &str, found: &Outcome) -> String {
        let before = self.played.iter().map(|(call, answer)| format!("{}\n  answer {}\n", call.show(), show(answer)));
        format!(
            "calls before:\n{}failing call:\n{}\n{}model:\n{}{who}:\n{}",
            before.collect::<String>(),
            call.show(),
            show_state(state),
            show_outcome(expected),
            show_outcome(found)
        )
    }

    /// Steps, truthful replies, filings and fillings to the end, one call in `noise` another one. Honest scripts forget what
    /// those change.
    fn drive(&mut self, calls: usize, noise: usize, honest: bool) -> Result<(), String> {
        for _ in 0..calls {
            if self.opened.is_some() && self.chance(12) {
                self.look()?;
            }
            if self.chance(noise) {
                self.disturb(honest)?;
                continue;
            }
            if self.chance(10) {
                if let Some(row) = self.truthful_row() {
                    self.keep(Call::File(row), honest)?;
                }
                // Another row, which is not kept.
                let row = self.any_filed(&self.state.clone());
                self.call(self.state.clone(), Call::File(row))?;
                continue;
            }
            if self.chance(10) {
                if let Some(filling) = self.truthful_filling(&self.state.clone()) {
                    self.keep(filling, honest)?;
                }
                // Another filling, which is not kept.
                let filling = self.any_filling(&self.state.clone());
                self.call(self.state.clone(), filling)?;
                continue;
            }
            let stepped = self.call(self.state.clone(), Call::Step)?;
            self.state = stepped.state;
            if stepped.answer.code == FINISHED {
                if self.opened.is_some() {
                    self.go_on(honest)?;
                }
                for _ in 0..3 {
                    self.disturb(honest)?;
                }
                return Ok(());
            }
            if stepped.answer.code == ASKED {
                let question = (stepped.answer.first, stepped.answer.second);
                self.check_new(question)?;
                if self.chance(3) {
                    // Another reply, or a test, of which nothing is kept.
                    let row = self.any_row(&self.state.clone());
                    let call = [Call::Yes, Call::No(row), Call::Test(row)][self.random.below(3)].clone();
                    self.call(self.state.clone(), call)?;
                }
                let reply = self.truthful(&self.state.clone(), question);
                let replied = self.call(self.state.clone(), reply)?;
                self.state = replied.state;
                if replied.answer != Answer::accepted() {
                    return self.disturb(honest);
                }
                self.answered.push(question);
            }
        }
        Ok(())
    }

    /// Asks about a rule over M, and again about those that were asked about before: what follows goes on following, what a row
    /// refutes goes on being refuted, by that row or an earlier one, and nothing is both.
    fn look(&mut self) -> Result<(), String> {
        let state = self.state.clone();
        let all = sets::all(state.record.n);
        let (premise, conclusion) = self.any_rule(&state);
        let mut shown = std::mem::take(&mut self.shown);
        for (rule, before) in &mut shown {
            let now = self.said(&state, *rule)?;
            let kind = match (*before, now) {
                (Said::Follows, Said::Follows) => SHOWN_FOLLOWS,
                (Said::RefutedBy(row), Said::RefutedBy(first)) if first <= row => SHOWN_REFUTED,
                (Said::Neither, _) => SHOWN_OPEN,
                _ => return Err(format!("said otherwise before:\n{}\n{}", Call::Follows(*rule).show(), show_state(&state))),
            };
            let code = match now {
                Said::Follows => FOLLOWS,
                Said::RefutedBy(_) => REFUTED,
                Said::Neither => UNREFUTED,
            };
            self.tally.add(kind, code);
            if kind == SHOWN_REFUTED && now != *before {
                self.tally.add(SHOWN_EARLIER, code);
            }
            *before = now;
        }
        let rule = (premise & all, conclusion & all);
        let said = self.said(&state, rule)?;
        if shown.len() == MAX_SHOWN {
            let dropped = self.random.below(MAX_SHOWN);
            shown.swap_remove(dropped);
        }
        shown.push((rule, said));
        self.shown = shown;
        Ok(())
    }

    /// What the two read-only calls say of a rule over M, which they may not refuse.
    fn said(&mut self, state: &State, rule: Pair) -> Result<Said, String> {
        let follows = self.call(state.clone(), Call::Follows(rule))?.answer;
        let refuted = self.call(state.clone(), Call::Refuted(rule))?.answer;
        match (follows.code, follows.first, refuted.code) {
            (FOLLOWS, 1, UNREFUTED) => Ok(Said::Follows),
            (FOLLOWS, 0, REFUTED) => Ok(Said::RefutedBy(refuted.first)),
            (FOLLOWS, 0, UNREFUTED) => Ok(Said::Neither),
            _ => {
                let (follows, refuted) = (show(&follows), show(&refuted));
                let state = show_state(state);
                Err(format!("{}\n{state}follows: {follows}\nrefuted: {refuted}", Call::Follows(rule).show()))
            }
        }
    }

    /// A question that was answered since the opening does not come up again.
    fn check_new(&mut self, question: Pair) -> Result<(), String> {
        if self.opened.is_none() {
            return Ok(());
        }
        if self.answered.contains(&question) {
            let (premise, conclusion) = question;
            return Err(format!("asked again: {premise:#x} {conclusion:#x}\n{}", show_state(&self.state)));
        }
        self.tally.add(if self.answered.is_empty() { ASKED_FIRST } else { ASKED_NEXT }, ASKED);
        Ok(())
    }

    /// Some of the marks of a row of the complete table, if it has a row.
    fn truthful_row(&mut self) -> Option<Pair> {
        let last = self.truth.len().checked_sub(1)?;
        let (yes, no) = self.truth[self.random.below(last + 1)];
        Some((self.random.subset(yes), self.random.subset(no)))
    }

    /// Some of the marks of a row of the complete table for a row in use that it may be, if there are such rows.
    fn truthful_filling(&mut self, state: &State) -> Option<Call> {
        let rows = pairs(&state.rows, state.record.rows);
        let row = self.random.below(rows.len().max(1));
        let &(yes, no) = rows.get(row)?;
        let fits = |truth: &&Pair| yes & !truth.0 == 0 && no & !truth.1 == 0;
        let fitting: Vec<Pair> = self.truth.iter().filter(fits).copied().collect();
        let &(yes, no) = fitting.get(self.random.below(fitting.len().max(1)))?;
        Some(Call::Fill(row, (self.random.subset(yes), self.random.subset(no))))
    }

    /// Makes a filing or a filling and keeps what it leaves. In an honest script it is truthful, and refused for want of a
    /// place alone.
    fn keep(&mut self, call: Call, honest: bool) -> Result<u64, String> {
        let Outcome { answer, state, .. } = self.call(self.state.clone(), call.clone())?;
        if honest && !matches!(answer.code, 12 | ACCEPTED) {
            return Err(format!("refused, and truthful:\n{}\n{}", call.show(), show_state(&state)));
        }
        if let (true, Some(opened), Call::Fill(row, _)) = (honest, self.opened, &call) {
            self.tally.add(if *row < opened { FILLED_FIRST } else { FILLED_LATER }, answer.code);
        }
        self.state = state;
        Ok(answer.code)
    }

    /// Rows that turn up, and marks that become known, after a finished interview. It stays finished, and its list decides every
    /// rule with them as well.
    fn go_on(&mut self, honest: bool) -> Result<(), String> {
        self.ask_rules()?;
        self.look()?;
        for _ in 0..2 + self.random.below(5) {
            let state = self.state.clone();
            let (truthful, late) = (honest || self.chance(3), [FILED_LATE, FILLED_LATE][self.random.below(2)]);
            let call = match (late, truthful) {
                (FILED_LATE, true) => self.truthful_row().map(Call::File),
                (FILED_LATE, false) => Some(Call::File(self.any_filed(&state))),
                (_, true) => self.truthful_filling(&state),
                (_, false) => Some(self.any_filling(&state)),
            };
            if let Some(call) = call {
                let code = self.keep(call, honest)?;
                self.tally.add(late, code);
            }
        }
        let stepped = self.call(self.state.clone(), Call::Step)?;
        if stepped.answer.code != FINISHED {
            return Err(format!("finished no more:\n{}", show_state(&self.state)));
        }
        for code in self.ask_rules()? {
            self.tally.add(DECIDED_LATE, code);
        }
        self.look()
    }

    /// Asks about some rules over M: each follows just if no row refutes it. Returns the codes of whether it is refuted.
    fn ask_rules(&mut self) -> Result<Vec<u64>, String> {
        let state = self.state.clone();
        let all = sets::all(state.record.n);
        let mut codes = vec![];
        for _ in 0..4 {
            let (premise, conclusion) = self.any_rule(&state);
            let rule = (premise & all, conclusion & all);
            let follows = self.call(state.clone(), Call::Follows(rule))?.answer.first == 1;
            let refuted = Call::Refuted(rule);
            let code = self.call(state.clone(), refuted.clone())?.answer.code;
            if follows != (code == UNREFUTED) {
                let state = show_state(&state);
                return Err(format!("finished, and not decided:\n{}\n{state}follows: {follows}", refuted.show()));
            }
            codes.push(code);
        }
        Ok(codes)
    }

    /// The reply of the complete table: the marks that refute, and some of the other marks.
    fn truthful(&mut self, state: &State, question: Pair) -> Call {
        match self.truth.iter().find(|&&row| sets::refutes(row, question)) {
            Some(&(yes, no)) => {
                let lacking = self.random.member(no & question.1);
                let row = (question.0 | self.random.subset(yes), lacking | self.random.subset(no));
                Call::No(if self.chance(2) { self.thinned(state, question, row) } else { row })
            }
            None => Call::Yes,
        }
    }

    /// A row with some marks left out without which it refutes the question, by the rules or by its other marks.
    fn thinned(&mut self, state: &State, question: Pair, mut row: Pair) -> Pair {
        let rules = in_force(state);
        for _ in 0..4 {
            let marks = if self.chance(2) { question.0 & row.0 } else { row.0 | row.1 };
            let left_out = self.random.member(marks);
            let thinner = (row.0 & !left_out, row.1 & !left_out);
            if sets::implied_refutes(&rules, state.record.n, thinner, question) {
                row = thinner;
            }
        }
        row
    }

    /// Any call, from the state or from a damaged copy.
    fn disturb(&mut self, honest: bool) -> Result<(), String> {
        let call = self.any_call(&self.state.clone());
        if self.chance(2) {
            return self.call_damaged(call);
        }
        let Outcome { answer, state: left, .. } = self.call(self.state.clone(), call.clone())?;
        if honest {
            return Ok(());
        }
        match call {
            Call::Open { .. } | Call::OpenAndReplay { .. } => (self.shown, self.answered) = (vec![], vec![]),
            Call::Yes | Call::No(_) if answer.code == ACCEPTED => self.answered.push(standing(&self.state)),
            Call::Step if answer.code == ASKED => self.check_new((answer.first, answer.second))?,
            _ => {}
        }
        self.state = left;
        Ok(())
    }

    /// Makes a call from a damaged copy of the state.
    fn call_damaged(&mut self, call: Call) -> Result<(), String> {
        let mut state = self.state.clone();
        if let Call::Open { n, used } | Call::OpenAndReplay { n, used, .. } = call {
            (state.record.n, state.record.rows) = (n, used);
        }
        for _ in 0..[1, 1, 2, 3][self.random.below(4)] {
            self.damage(&mut state);
        }
        let call = match call {
            Call::Open { .. } => Call::Open { n: state.record.n, used: state.record.rows },
            Call::OpenAndReplay { calls, answers, .. } => {
                Call::OpenAndReplay { n: state.record.n, used: state.record.rows, calls, answers }
            }
            call => call,
        };
        self.call(state, call).map(|_| ())
    }

    fn any_call(&mut self, state: &State) -> Call {
        match self.random.below(29) {
            0 => Call::Open { n: state.record.n, used: state.record.rows },
            1 | 2 => Call::Step,
            3 | 4 => Call::Yes,
            5..9 => Call::No(self.any_row(state)),
            9..12 => Call::Follows(self.any_rule(state)),
            12..15 => Call::Refuted(self.any_rule(state)),
            15 => self.any_replay(state),
            16 | 17 => self.any_opening_with_replay(state),
            18..22 => Call::Test(self.any_row(state)),
            22..26 => Call::File(self.any_filed(state)),
            _ => self.any_filling(state),
        }
    }

    /// A row that refutes the question, by its marks or by the rules, or one with a fault.
    fn any_row(&mut self, state: &State) -> Pair {
        let row = self.row_with_marks(state);
        if self.chance(2) { self.thinned(state, question(state), row) } else { row }
    }

    /// A row to file: one as for a no, one that contradicts nothing, or one that contradicts a rule in force.
    fn any_filed(&mut self, state: &State) -> Pair {
        let all = sets::all(state.record.n);
        match self.random.below(4) {
            0..2 => self.any_row(state),
            2 => {
                let yes = sets::closure(&in_force(state), self.random.subset(all));
                (self.random.subset(yes), self.random.subset(all & !yes))
            }
            _ => {
                let (premise, conclusion) = self.any_in_force(state);
                let yes = premise | self.random.subset(all & !conclusion);
                (yes, self.random.member(conclusion & !yes) | self.random.subset(all & !yes))
            }
        }
    }

    /// Marks for a row in use or for none: such as the row has, that fit, that contradict a rule in force, or any; often with a
    /// mark reversed or a fault.
    fn any_filling(&mut self, state: &State) -> Call {
        let all = sets::all(state.record.n);
        let (rows, rules) = (pairs(&state.rows, state.record.rows), in_force(state));
        let row = self.any_row_number(rows.len(), state.rows.len() / 2);
        let &(yes, no) = rows.get(row).or(rows.last()).unwrap_or(&(0, 0));
        let (mut more, mut lacking) = match self.random.below(10) {
            0 => (yes, no),
            1 => (self.random.subset(yes), self.random.subset(no)),
            2 => {
                let mark = self.random.member(all & !yes & !no);
                if self.chance(2) { (mark, 0) } else { (0, mark) }
            }
            3 | 4 => {
                // Contradicts nothing.
                let some = sets::closure(&rules, yes | self.random.subset(all & !no));
                let had = if some & no == 0 { some } else { sets::closure(&rules, yes) };
                (self.random.subset(had), self.random.subset(all & !had))
            }
            5..8 => {
                // Contradicts a rule in force, with what the row has.
                let more = self.any_in_force(state).0 & !no;
                (more, self.random.member(sets::closure(&rules, yes | more) & !yes & !more))
            }
            8 => {
                let more = self.random.subset(all & !no);
                (more, self.random.subset(all & !yes & !more))
            }
            _ => self.any_filed(state),
        };
        match self.random.below(12) {
            0 => more |= self.random.member(no),
            1 => lacking |= self.random.member(yes),
            2 => lacking |= self.random.member(more),
            3 => more |= self.random.member(!all),
            4 => lacking |= self.random.member(!all),
            _ => {}
        }
        Call::Fill(row, (more, lacking))
    }

    /// The number of a row in use, or one past those in use, past the places, or so large that its double is none.
    fn any_row_number(&mut self, used: usize, places: usize) -> usize {
        let number = self.random.below(used.max(1));
        match self.random.below(32) {
            0 => used,
            1 => used + self.random.below(places + 1),
            2 => places + self.random.below(3),
            3 => (1 << 63) + number,
            4 => (1 << 63) - 1 - self.random.below(2),
            5 => usize::MAX - self.random.below(3),
            6 => (1 << 32) + number,
            7 => self.random.word() as usize,
            _ => number,
        }
    }

    /// A row with marks that refute the question, or with a fault.
    fn row_with_marks(&mut self, state: &State) -> Pair {
        let all = sets::all(state.record.n);
        let (premise, conclusion) = question(state);
        let lacking = self.random.member(conclusion);
        let more = if self.chance(2) { 0 } else { self.random.subset(all & !lacking) };
        let yes = premise | more;
        let no = lacking | self.random.subset(all & !yes);
        match self.random.below(12) {
            0 => (yes, no | self.random.member(yes)),
            1 => (yes | self.random.member(!all), no),
            2 => (yes, no | self.random.member(!all)),
            3 => (yes & !self.random.member(premise), no),
            4 => (yes, no & !conclusion),
            5 => {
                // Contradicts a rule in force.
                let rule = self.any_in_force(state);
                let yes = yes | rule.0;
                (yes, (no | rule.1) & !yes)
            }
            6 => {
                // The same with nothing marked no but what the rule says.
                let rule = self.any_in_force(state);
                let yes = premise | rule.0;
                (yes, rule.1 & !yes & !conclusion)
            }
            7 | 8 => {
                // Lacks something of the conclusion, because with it a rule in force would be contradicted.
                let rule = self.any_in_force(state);
                let yes = premise | rule.0 & !self.random.member(conclusion & rule.0);
                (yes, rule.1 & !yes & !conclusion)
            }
            _ => (yes, no),
        }
    }

    /// One of the rules in force, or one that says nothing.
    fn any_in_force(&mut self, state: &State) -> Pair {
        let rules = in_force(state);
        if rules.is_empty() { (0, 0) } else { rules[self.random.below(rules.len())] }
    }

    /// A rule to ask about.
    fn any_rule(&mut self, state: &State) -> Pair {
        let all = sets::all(state.record.n);
        let (premise, conclusion) = (self.random.subset(all), self.random.subset(all));
        match self.random.below(8) {
            0 => question(state),
            1 => self.any_in_force(state),
            2 => (premise | self.random.member(!all), conclusion),
            3 => (premise, conclusion | self.random.member(!all)),
            4 if state.record.rows > 0 && state.rows.len() > 1 => {
                let rows = pairs(&state.rows, state.record.rows);
                let (yes, no) = rows[self.random.below(rows.len())];
                (self.random.subset(yes), no)
            }
            5 => (premise, sets::closure(&in_force(state), premise)),
            6 if state.record.rows > 0 && state.rows.len() > 1 => {
                // Often refuted by the rules.
                let rows = pairs(&state.rows, state.record.rows);
                let yes = rows[self.random.below(rows.len())].0;
                (self.random.subset(sets::closure(&in_force(state), yes)), self.random.member(all & !yes))
            }
            _ => (premise, conclusion),
        }
    }

    /// A log of calls that lead on from the state, of others and of unknown kinds, with room for its answers or without.
    fn any_replay(&mut self, state: &State) -> Call {
        let mut state = state.clone();
        let mut calls = vec![];
        let longest = if self.chance(20) { 300 } else { 40 };
        let count = self.random.below(longest);
        for _ in 0..count {
            let call = match self.random.below(14) {
                0 => Call::Follows(self.any_rule(&state)),
                1 => Call::Refuted(self.any_rule(&state)),
                2 => Call::No(self.any_row(&state)),
                3 => Call::Yes,
                4 => Call::Step,
                5 => Call::Test(self.any_row(&state)),
                6 => Call::File(self.any_filed(&state)),
                7 => self.truthful_row().map_or(Call::Step, Call::File),
                8 | 9 => self.any_filling(&state),
                10 => self.truthful_filling(&state).unwrap_or(Call::Step),
                _ => match by_model(&state, &Call::Step).answer {
                    Answer { code: ASKED, first, second } => self.truthful(&state, (first, second)),
                    _ => Call::Step,
                },
            };
            // Arguments that a kind does not use are anything.
            let [first, second, third] = [self.random.word(), self.random.word(), self.random.word()];
            let (kind, arguments) = match call {
                Call::Yes => (1, [first, second, third]),
                Call::No((yes, no)) => (2, [yes, no, third]),
                Call::Follows((premise, conclusion)) => (3, [premise, conclusion, third]),
                Call::Refuted((premise, conclusion)) => (4, [premise, conclusion, third]),
                Call::Test((yes, no)) => (5, [yes, no, third]),
                Call::File((yes, no)) => (6, [yes, no, third]),
                Call::Fill(row, (yes, no)) => (7, [row as u64, yes, no]),
                _ => (0, [first, second, third]),
            };
            if self.chance(12) {
                calls.push(8 + self.random.word() % 3);
            } else if self.chance(40) {
                calls.push(kind | 1 << 32);
            } else {
                calls.push(kind);
                state = by_model(&state, &call).state;
            }
            calls.extend(arguments);
        }
        let answers = match self.random.below(4) {
            0 => (ANSWER_WORDS * count).saturating_sub(1 + self.random.below(4)),
            1 => ANSWER_WORDS * count,
            _ => ANSWER_WORDS * count + self.random.below(5),
        };
        let trailing = self.random.below(CALL_WORDS);
        calls.extend(self.random.words(trailing));
        Call::Replay { calls, answers: self.random.words(answers) }
    }

    /// A session opened again with the rows in use, and a log for it.
    fn any_opening_with_replay(&mut self, state: &State) -> Call {
        let Record { n, rows: used, .. } = state.record;
        let opened = by_model(state, &Call::Open { n, used }).state;
        match self.any_replay(&opened) {
            Call::Replay { calls, answers } => Call::OpenAndReplay { n, used, calls, answers },
            call => call,
        }
    }

    /// Damages, or nearly damages, the record or the lent words.
    fn damage(&mut self, state: &mut State) {
        let all = sets::all(state.record.n);
        match self.random.below(17) {
            0 => state.record.n = [0, 65, 66, 1 << 32, 1 << 63, usize::MAX][self.random.below(6)],
            1 => state.record.n = 1 + self.random.below(64),
            2 => state.record.rows = self.any_use(state.rows.len()),
            3 => state.record.rules = self.any_use(state.list.len()),
            4 | 5 => state.record.current = self.any_current(state),
            6 => {
                // One place less than is in use.
                state.rows.truncate((2 * state.record.rows.min(MAX_ROW_WORDS)).saturating_sub(2));
                state.list.truncate((2 * state.record.rules.min(MAX_RULE_WORDS)).saturating_sub(2));
            }
            7 => {
                // All places in use.
                state.rows.truncate(state.record.rows.saturating_mul(2));
                state.list.truncate(state.record.rules.saturating_mul(2));
            }
            8 => {
                let (words, _) = self.any_lent(state);
                if self.chance(2) {
                    words.pop();
                } else {
                    words.push(self.random.word() & all);
                }
            }
            9 => {
                let (words, limit) = self.any_lent(state);
                words.resize(limit + self.random.below(5), 0);
            }
            10 | 11 => {
                let (words, _) = self.any_lent(state);
                if !words.is_empty() {
                    let at = self.random.below(words.len());
                    words[at] |= self.random.member(!all);
                }
            }
            12 => {
                // Marked both ways.
                if let Some(row) = self.any_row_in_use(state) {
                    row[1] |= self.random.member(row[0]);
                }
            }
            13 | 14 => {
                // Contradicts a rule in force.
                let (premise, conclusion) = self.any_in_force(state);
                if let Some(row) = self.any_row_in_use(state) {
                    row[0] |= premise;
                    row[1] = (row[1] | conclusion) & !row[0];
                }
            }
            15 => state.background.extend([self.random.subset(all), self.random.subset(all)]),
            _ => {
                // The current set is closed no more.
                let current = state.record.current;
                state.background.extend([self.random.subset(current), self.random.member(all & !current)]);
            }
        }
    }

    /// How many places are said to be in use.
    fn any_use(&mut self, words: usize) -> usize {
        let places = words / 2;
        match self.random.below(8) {
            0 => usize::MAX,
            1 => 1 << 63,
            2 => (1 << 63) + 1,
            3 => self.random.word() as usize,
            4 => places,
            5 => self.random.below(places + 1),
            _ => places + 1,
        }
    }

    fn any_current(&mut self, state: &State) -> u64 {
        let all = sets::all(state.record.n);
        let some = self.random.subset(all);
        match self.random.below(6) {
            0 => self.random.word(),
            1 => state.record.current | self.random.member(!all),
            2 => all,
            3 => sets::closure(&in_force(state), some),
            4 => {
                let (premise, conclusion) = self.any_in_force(state);
                (some | premise) & !self.random.member(conclusion & !premise)
            }
            _ => some,
        }
    }

    /// One of the lent slices and its limit.
    fn any_lent<'s>(&mut self, state: &'s mut State) -> (&'s mut Vec<u64>, usize) {
        match self.random.below(3) {
            0 => (&mut state.rows, MAX_ROW_WORDS),
            1 => (&mut state.list, MAX_RULE_WORDS),
            _ => (&mut state.background, MAX_RULE_WORDS),
        }
    }

    /// A row in use, often the last.
    fn any_row_in_use<'s>(&mut self, state: &'s mut State) -> Option<&'s mut [u64]> {
        let last = state.record.rows.min(state.rows.len() / 2).checked_sub(1)?;
        let number = if self.chance(3) { last } else { self.random.below(last + 1) };
        state.rows.chunks_exact_mut(2).nth(number)
    }
}
