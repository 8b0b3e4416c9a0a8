//! The session calls of the library, the one that writes a table and the one that lists what nearly always holds, against
//! those of the model, timed in turn in one run.
//!
//! `calls_bench [SEED]` prints the median nanoseconds of a call and the ratio of library to model.

#[path = "../include/zundrafl.rs"]
mod library;
#[path = "model/machine.rs"]
mod machine;
#[path = "model/nearly.rs"]
#[allow(dead_code)]
mod nearly;
#[path = "model/opened.rs"]
#[allow(dead_code)]
mod opened;
mod random;
#[path = "model/sets.rs"]
#[allow(dead_code)]
mod sets;
#[path = "model/table.rs"]
#[allow(dead_code)]
mod table;

use std::hint::black_box;
use std::time::{Duration, Instant};

use library::{
    zundrafl_accept, zundrafl_file_row, zundrafl_fill_row, zundrafl_follows, zundrafl_nearly, zundrafl_open_session,
    zundrafl_refuted, zundrafl_reject, zundrafl_replay, zundrafl_step, zundrafl_test_row, zundrafl_write_table,
};
use machine::{ACCEPTED, ANSWER_WORDS, ASKED, Answer, CALL_WORDS, FOLLOWS, MOVED, REFUTES, Record, UNREFUTED};
use random::Random;
use sets::Pair;

/// Many short samples: those that other load disturbs stay few, and the median does not see them. Slow calls get fewer.
const MAX_SAMPLES: usize = 1001;
const MIN_SAMPLES: usize = 31;
const SAMPLE_TIME: Duration = Duration::from_micros(40);
const MAX_TIME: Duration = Duration::from_secs(2);
const CALIBRATIONS: usize = 9;
/// Rows and list rules in use, of complete rows and of rows with half of their marks unknown.
const SIZES: [(usize, usize); 3] = [(10, 10), (100, 50), (512, 100)];
const UNKNOWN_SIZE: (usize, usize) = (512, 256);
/// The rows that have a set which few rows have.
const FEW: usize = 16;

const FOLLOWS_KIND: u64 = 3;
const PERCENT: u64 = 80;

/// A session in the middle of an interview.
#[derive(Clone, PartialEq, Debug)]
struct State {
    record: Record,
    rows: Vec<u64>,
    list: Vec<u64>,
    background: Vec<u64>,
    /// Of the rows and the properties, as lines of ten bytes.
    names: Vec<u8>,
    /// Where a table file is written.
    out: Vec<u8>,
}

#[derive(Clone, Copy)]
enum Call {
    Open,
    Step,
    Yes,
    No(Pair),
    Test(Pair),
    File(Pair),
    Fill(usize, Pair),
    Follows(Pair),
    Refuted(Pair),
    /// A log with the one call whether a rule follows.
    Replay(Pair),
    Write,
    /// With a premise.
    Nearly(u64),
}

fn log(rule: Pair) -> [u64; CALL_WORDS] {
    [FOLLOWS_KIND, rule.0, rule.1, 0]
}

fn by_model(state: &mut State, call: Call) -> Answer {
    let State { record, rows, list, background, names, out } = state;
    match call {
        Call::Open => machine::open(record, record.n, record.rows, rows, list, background),
        Call::Step => machine::step(record, rows, list, background),
        Call::Yes => machine::yes(record, rows, list, background),
        Call::No(row) => machine::no(record, rows, list, background, row),
        Call::Test(row) => machine::test(record, rows, list, background, row),
        Call::File(row) => machine::file(record, rows, list, background, row),
        Call::Fill(row, marks) => machine::fill(record, rows, list, background, row, marks),
        Call::Follows(rule) => machine::follows(record, rows, list, background, rule),
        Call::Refuted(rule) => machine::refuted(record, rows, list, background, rule),
        Call::Replay(rule) => machine::replay(record, rows, list, background, &log(rule), &mut [0; ANSWER_WORDS]),
        Call::Write => opened::write_table(record.n, record.rows, rows, names, out),
        Call::Nearly(premise) => nearly::nearly(record.n, record.rows, rows, premise, PERCENT),
    }
}

fn by_library(state: &mut State, call: Call) -> Answer {
    let State { record, rows, list, background, names, out } = state;
    let mut answer = Answer::new(0, 0, 0);
    let (n, used) = (record.n, record.rows);
    let (s, a) = ((&raw mut *record).cast(), (&raw mut answer).cast());
    let ((r, r_len), (l, l_len)) = ((rows.as_mut_ptr(), rows.len()), (list.as_mut_ptr(), list.len()));
    let (b, b_len) = (background.as_ptr(), background.len());
    let ((m, m_len), (o, o_len)) = ((names.as_ptr(), names.len()), (out.as_mut_ptr(), out.len()));
    // SAFETY: each pointer leads to as many elements as its length says, and all of them outlive the call.
    unsafe {
        match call {
            Call::Open => zundrafl_open_session(s, n, used, r, r_len, l, l_len, b, b_len, a),
            Call::Step => zundrafl_step(s, r, r_len, l, l_len, b, b_len, a),
            Call::Yes => zundrafl_accept(s, r, r_len, l, l_len, b, b_len, a),
            Call::No((yes, no)) => zundrafl_reject(s, r, r_len, l, l_len, b, b_len, yes, no, a),
            Call::Test((yes, no)) => zundrafl_test_row(s, r, r_len, l, l_len, b, b_len, yes, no, a),
            Call::File((yes, no)) => zundrafl_file_row(s, r, r_len, l, l_len, b, b_len, yes, no, a),
            Call::Fill(row, (yes, no)) => zundrafl_fill_row(s, r, r_len, l, l_len, b, b_len, row, yes, no, a),
            Call::Follows((premise, conclusion)) => {
                zundrafl_follows(s, r, r_len, l, l_len, b, b_len, premise, conclusion, a)
            }
            Call::Refuted((premise, conclusion)) => {
                zundrafl_refuted(s, r, r_len, l, l_len, b, b_len, premise, conclusion, a)
            }
            Call::Replay(rule) => {
                let (calls, mut answers) = (log(rule), [0; ANSWER_WORDS]);
                let (c, w) = (calls.as_ptr(), answers.as_mut_ptr());
                zundrafl_replay(s, r, r_len, l, l_len, b, b_len, c, calls.len(), w, answers.len(), a)
            }
            Call::Write => zundrafl_write_table(n, used, r, r_len, m, m_len, o, o_len, a),
            Call::Nearly(premise) => zundrafl_nearly(n, used, r, r_len, premise, PERCENT, a),
        }
    }
    answer
}

/// A union of some single properties of M.
fn some(random: &mut Random, all: u64, members: usize) -> u64 {
    (0..members).fold(0, |set, _| set | random.member(all))
}

fn words(pairs: &[Pair]) -> Vec<u64> {
    pairs.iter().flat_map(|&(first, second)| [first, second]).collect()
}

/// The middle of an interview with truthful replies: complete rows, all different and closed under the list. All places
/// for rows are in use, one for rules is free. The current set is not chosen yet.
fn middle(random: &mut Random, n: usize, rows: usize, rules: usize) -> (State, Vec<Pair>) {
    let all = sets::all(n);
    let list: Vec<Pair> = (0..rules).map(|_| (some(random, all, n / 8 + 2), random.member(all))).collect();
    let mut table: Vec<Pair> = vec![];
    while table.len() < rows {
        let yes = sets::closure(&list, random.subset(all));
        let row = (yes, all & !yes);
        if yes != all && !table.contains(&row) {
            table.push(row);
        }
    }
    let record = Record { n, rows, rules, current: 0 };
    let state = State {
        record,
        rows: words(&table),
        list: [words(&list), random.words(2)].concat(),
        background: vec![],
        names: (0..rows + n).flat_map(|i| format!("name {i:05}\n").into_bytes()).collect(),
        out: vec![0; table::MAX_BYTES],
    };
    (state, table)
}

/// Rows with half of their marks unknown, of complete rows closed under the list. Its conclusions are from a quarter of the
/// properties, so that rows have more than is marked, but not everything. The last property is in no rule and has no mark.
fn half_unknown(random: &mut Random, n: usize, rows: usize, rules: usize) -> (State, Vec<Pair>) {
    let marked = sets::all(n - 1);
    let concluded = marked & !sets::all(3 * n / 4);
    let list: Vec<Pair> = (0..rules).map(|_| (some(random, marked, 3), random.member(concluded))).collect();
    let mut row = || {
        let (yes, known) = (sets::closure(&list, random.subset(marked)), random.word());
        (yes & known, marked & !yes & known)
    };
    let table: Vec<Pair> = (0..rows).map(|_| row()).collect();
    let record = Record { n, rows, rules, current: 0 };
    let (rows, words_of_list) = (words(&table), words(&list));
    (State { record, rows, list: words_of_list, background: vec![], names: vec![], out: vec![] }, list)
}

fn with_current(state: &State, current: u64) -> State {
    State { record: Record { current, ..state.record }, ..state.clone() }
}

/// A call by its name, with a state for it and the code that it gives.
type Measured = (&'static str, State, Call, u64);

/// Every kind of call.
fn calls(random: &mut Random, n: usize, rows: usize, rules: usize) -> Vec<Measured> {
    let all = sets::all(n);
    let (state, table) = middle(random, n, rows, rules);
    let list: Vec<Pair> = state.list.chunks_exact(2).take(rules).map(|rule| (rule[0], rule[1])).collect();

    // What two rows have in common equals its reach; most other closed sets do not.
    let (one, other) = (table[random.below(rows)], table[random.below(rows)]);
    let moving = with_current(&state, one.0 & other.0);
    let asking = loop {
        let asking = with_current(&state, sets::closure(&list, random.subset(all)));
        if by_model(&mut asking.clone(), Call::Step).code == ASKED {
            break asking;
        }
    };
    let premise = asking.record.current;
    let refuting = (premise, all & !premise);
    // An accepted row needs a free place: the last row is not in use yet.
    let mut one_free = asking.clone();
    one_free.record.rows -= 1;
    // The last row has no marks yet.
    let mut unmarked = moving.clone();
    unmarked.rows[2 * (rows - 1)..].fill(0);

    let rule = (random.subset(all), random.member(all));
    // Two properties that some row has.
    let several = table.iter().map(|row| row.0).find(|yes| yes.count_ones() > 1).expect("a row with two properties");
    let first = random.member(several);
    let two = first | random.member(several & !first);
    vec![
        ("open", moving.clone(), Call::Open, ACCEPTED),
        ("step, moves", moving.clone(), Call::Step, MOVED),
        ("step, asks", asking.clone(), Call::Step, ASKED),
        ("yes", asking, Call::Yes, ACCEPTED),
        ("no", one_free.clone(), Call::No(refuting), ACCEPTED),
        ("test", one_free.clone(), Call::Test(refuting), REFUTES),
        ("filing", one_free, Call::File(refuting), ACCEPTED),
        ("filling", unmarked, Call::Fill(rows - 1, table[rows - 1]), ACCEPTED),
        ("follows", moving.clone(), Call::Follows(rule), FOLLOWS),
        ("refuted", moving.clone(), Call::Refuted((all, all)), UNREFUTED),
        ("replay", moving.clone(), Call::Replay(rule), ACCEPTED),
        ("write", moving.clone(), Call::Write, ACCEPTED),
        ("nearly, of 0", moving.clone(), Call::Nearly(0), ACCEPTED),
        ("nearly, of 2", moving, Call::Nearly(two), ACCEPTED),
    ]
}

/// The calls that read implied marks, over rows with half of their marks unknown: in a set that few rows have, and in the
/// empty one, which all rows have. A step asks in both, since no row lacks the last property; no row refutes what it asks.
fn implied_calls(random: &mut Random, n: usize, rows: usize, rules: usize) -> Vec<Measured> {
    let (empty, list) = half_unknown(random, n, rows, rules);
    let had = |row: usize| sets::closure(&list, empty.rows[2 * row]);
    let shared = loop {
        let current = had(random.below(rows)) & had(random.below(rows));
        if (0..rows).filter(|&row| current & !had(row) == 0).count() <= FEW {
            break with_current(&empty, current);
        }
    };
    let asked = |state: &State| {
        let Answer { first, second, .. } = by_model(&mut state.clone(), Call::Step);
        Call::Refuted((first, second))
    };
    let (of_shared, of_empty) = (asked(&shared), asked(&empty));
    vec![
        ("step, asks", shared.clone(), Call::Step, ASKED),
        ("step, of 0", empty.clone(), Call::Step, ASKED),
        ("refuted", shared, of_shared, UNREFUTED),
        ("refuted, of 0", empty, of_empty, UNREFUTED),
    ]
}

type Run = fn(&mut State, Call) -> Answer;

/// The time of some calls in a row, each from the same state.
fn time(start: &State, call: Call, run: Run, repetitions: u32) -> Duration {
    let mut state = start.clone();
    let began = Instant::now();
    for _ in 0..repetitions {
        state.record = start.record;
        state.rows.copy_from_slice(&start.rows);
        state.list.copy_from_slice(&start.list);
        black_box(run(black_box(&mut state), call));
    }
    began.elapsed()
}

/// How often a call has to be repeated to fill a sample when nothing disturbs it.
fn repetitions(state: &State, call: Call, run: Run) -> u32 {
    let mut repetitions = 1;
    while (0..CALIBRATIONS).any(|_| time(state, call, run, repetitions) < SAMPLE_TIME) {
        repetitions *= 2;
    }
    repetitions
}

/// The median nanoseconds of a call by each run, sampled in turn.
fn medians(state: &State, call: Call, runs: [Run; 2]) -> [f64; 2] {
    let counts = runs.map(|run| repetitions(state, call, run));
    let mut samples = [vec![], vec![]];
    let began = Instant::now();
    for taken in 0..MAX_SAMPLES {
        if taken >= MIN_SAMPLES && began.elapsed() > MAX_TIME {
            break;
        }
        for ((run, count), samples) in runs.into_iter().zip(counts).zip(&mut samples) {
            samples.push(time(state, call, run, count).as_nanos() as f64 / f64::from(count));
        }
    }
    samples.map(|mut samples| {
        samples.sort_by(f64::total_cmp);
        samples[samples.len() / 2]
    })
}

/// Compares each call by library and model, and prints its times.
fn measure(n: usize, rows: usize, rules: usize, calls: Vec<Measured>) {
    for (name, state, call, code) in calls {
        let mut left = [state.clone(), state.clone()];
        let answers = [by_library(&mut left[0], call), by_model(&mut left[1], call)];
        assert_eq!(answers[0], answers[1], "{name}");
        assert_eq!(left[0], left[1], "{name}");
        assert_eq!(answers[0].code, code, "{name}");

        let [library, model] = medians(&state, call, [by_library, by_model]);
        let ratio = library / model;
        println!("{n:>3}{rows:>6}{rules:>7}  {name:<13}{library:>12.0}{model:>12.0}{ratio:>8.2}");
    }
}

fn main() {
    let seed = std::env::args().nth(1).map_or(1, |text| text.parse().expect("a number as seed"));
    println!("seed {seed}");
    println!(
        "{:>3}{:>6}{:>7}  {:<13}{:>12}{:>12}{:>8}",
        "n", "rows", "rules", "call", "library ns", "model ns", "ratio"
    );
    let mut random = Random::new(seed);
    for n in [64, 16] {
        for (rows, rules) in SIZES {
            measure(n, rows, rules, calls(&mut random, n, rows, rules));
        }
    }
    println!("half of the marks unknown");
    let (n, (rows, rules)) = (64, UNKNOWN_SIZE);
    measure(n, rows, rules, implied_calls(&mut random, n, rows, rules));
}
