//! Random call scripts: the library against the model, byte for byte.
//!
//! `scripts [SEED] [COUNT]` plays COUNT scripts; the script number i has the seed SEED + i, so that `scripts SEED 1` plays a
//! failing one again. A single script is printed call by call, each before it is made.

#[path = "../include/zundrafl.rs"]
mod library;
#[path = "model/machine.rs"]
mod machine;
#[path = "model/nearly.rs"]
#[allow(dead_code)]
mod nearly;
#[path = "model/opened.rs"]
mod opened;
mod random;
#[path = "model/sets.rs"]
mod sets;
#[path = "model/table.rs"]
mod table;

#[path = "scripts/fenced.rs"]
mod fenced;
#[path = "scripts/files.rs"]
mod files;
#[path = "scripts/listings.rs"]
mod listings;
#[path = "scripts/sessions.rs"]
mod sessions;

use std::collections::{BTreeMap, BTreeSet};
use std::process::{self, ExitCode};
use std::sync::atomic::{AtomicU64, Ordering};
use std::time::{SystemTime, UNIX_EPOCH};

use machine::Answer;
use random::Random;

/// From this many scripts on, every code that a call can give has to be seen often.
const DEFAULT_COUNT: u64 = 40_000;
const OFTEN: u64 = 100;

/// The seed of the script that is being played.
static PLAYING: AtomicU64 = AtomicU64::new(0);

unsafe extern "C" {
    fn signal(number: i32, handler: extern "C" fn(i32)) -> usize;
}

/// Names the script in which the library crashed.
extern "C" fn crashed(number: i32) {
    println!("signal {number} in the script of seed {}", PLAYING.load(Ordering::Relaxed));
    process::exit(1);
}

/// How often each kind of call gave each code.
pub struct Tally {
    counts: BTreeMap<(&'static str, u64), u64>,
    /// Print every call before it is made.
    pub loud: bool,
}

impl Tally {
    pub fn add(&mut self, kind: &'static str, code: u64) {
        *self.counts.entry((kind, code)).or_default() += 1;
    }

    fn of(&self, kind: &'static str, code: u64) -> u64 {
        self.counts.get(&(kind, code)).copied().unwrap_or(0)
    }

    fn print(&self, kinds: &[&'static str]) {
        let seen = self.counts.keys().filter(|(kind, _)| kinds.contains(kind));
        let codes: BTreeSet<u64> = seen.map(|&(_, code)| code).collect();
        print!("{:>6}", "code");
        kinds.iter().for_each(|kind| print!("{kind:>16}"));
        println!("{:>16}", "all");
        let line = |head: &str, counts: Vec<u64>| {
            print!("{head:>6}");
            counts.iter().for_each(|count| print!("{count:>16}"));
            println!("{:>16}", counts.iter().sum::<u64>());
        };
        for &code in &codes {
            line(&code.to_string(), kinds.iter().map(|kind| self.of(kind, code)).collect());
        }
        line("all", kinds.iter().map(|kind| codes.iter().map(|&code| self.of(kind, code)).sum()).collect());
    }
}

pub fn hex(words: &[u64]) -> String {
    let words: Vec<String> = words.iter().map(|word| format!("{word:#x}")).collect();
    format!("{} words: {}", words.len(), words.join(" "))
}

pub fn show(answer: &Answer) -> String {
    format!("{} {:#x} {:#x}", answer.code, answer.first, answer.second)
}

fn argument(place: usize) -> Option<u64> {
    let text = std::env::args().nth(place)?;
    Some(text.parse().unwrap_or_else(|_| panic!("not a number: {text}")))
}

fn main() -> ExitCode {
    let now = || SystemTime::now().duration_since(UNIX_EPOCH).map_or(0, |time| time.as_secs());
    let seed = argument(1).unwrap_or_else(now);
    let count = argument(2).unwrap_or(DEFAULT_COUNT);
    println!("seed {seed}, {count} scripts");

    // Illegal instruction, trap, abort, bus error, arithmetic fault, invalid memory.
    for number in [4, 5, 6, 7, 8, 11] {
        // SAFETY: the handler only reports and ends the program.
        unsafe { signal(number, crashed) };
    }
    if let Err(report) = sessions::check_marked() {
        println!("a marked case has another result\n{report}");
        return ExitCode::FAILURE;
    }
    let mut tally = Tally { counts: BTreeMap::new(), loud: count == 1 };
    for number in 0..count {
        let seed = seed.wrapping_add(number);
        PLAYING.store(seed, Ordering::Relaxed);
        let mut random = Random::new(seed);
        let played = match random.below(16) {
            0..4 => files::play(random, &mut tally),
            4..6 => listings::play(random, &mut tally),
            _ => sessions::play(random, &mut tally),
        };
        if let Err(report) = played {
            println!("a difference in the script of seed {seed}\n{report}");
            return ExitCode::FAILURE;
        }
    }

    let tables = [
        sessions::KINDS,
        sessions::FILED,
        sessions::FILLED,
        sessions::SHOWN,
        sessions::IMPLIED,
        files::KINDS,
        listings::KINDS,
    ];
    for kinds in tables {
        let kinds: Vec<&str> = kinds.iter().map(|&(kind, _)| kind).collect();
        tally.print(&kinds);
    }
    let expected = tables.into_iter().flatten();
    let rare: Vec<_> = expected
        .flat_map(|&(kind, codes)| codes.iter().map(move |&code| (kind, code)))
        .filter(|&(kind, code)| tally.of(kind, code) < OFTEN)
        .collect();
    if count >= DEFAULT_COUNT && !rare.is_empty() {
        println!("seen less than {OFTEN} times: {rare:?}");
        return ExitCode::FAILURE;
    }
    println!("no difference");
    ExitCode::SUCCESS
}
