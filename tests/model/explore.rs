//! The program of document 01 ("The program"), written from the document alone: the oracle of the comparison, and what the
//! benchmark measures against.
//!
//!     explore [ROW-PLACES RULE-PLACES] < TABLE
mod sets;
mod streams;
mod table;

use std::io::{self, Write};

use sets::Pair;
use streams::show_pair;
use table::Refusal;

/// Places lent for rows and rules.
#[derive(Clone, Copy)]
struct Places {
    rows: usize,
    rules: usize,
}

/// A complete row that refutes no rule in force has and lacks what is written of it: no marks are implied here.
fn interview(n: usize, table: &[Pair], places: Places, mut line: impl FnMut(&[u8])) -> Result<(), Refusal> {
    let mut text = Vec::new();
    let mut rows: Vec<Pair> = Vec::new();
    let mut rules: Vec<Pair> = Vec::new();
    let mut set = 0;
    let mut changes = 0u64;
    while set != sets::all(n) {
        let reach = sets::reach(&rows, n, set);
        if reach == set {
            set = sets::next(&rules, n, set).expect("a set before the last has a next one");
            changes += 1;
            continue;
        }
        let question = (set, reach & !set);
        text.clear();
        text.extend(b"Q ");
        show_pair(&mut text, n, question);
        let refuting = table.iter().position(|&row| sets::refutes(row, question));
        match refuting {
            Some(place) => writeln!(text, " no {}", place + 1),
            None => writeln!(text, " yes"),
        }
        .expect("a vector takes every byte");
        line(&text);
        let full = match refuting {
            Some(_) => rows.len() == places.rows,
            None => rules.len() == places.rules,
        };
        if full {
            return Err(Refusal { number: 12, place: 0 });
        }
        match refuting {
            Some(place) => rows.push(table[place]),
            None => {
                rules.push(question);
                set = sets::next(&rules, n, set).expect("a set before the last has a next one");
                changes += 1;
            }
        }
    }
    for &rule in &rules {
        text.clear();
        text.extend(b"L ");
        show_pair(&mut text, n, rule);
        text.push(b'\n');
        line(&text);
    }
    line(format!("END {} {} {}\n", rules.len(), rows.len(), changes).as_bytes());
    Ok(())
}

fn run(file: &[u8], places: Places, mut line: impl FnMut(&[u8])) -> Result<(), Refusal> {
    let table = table::read(file)?;
    if let Some(refusal) = table.unknown() {
        return Err(refusal);
    }
    interview(table.properties, &table.rows(), places, &mut line)
}

fn main() {
    // The program's places, or those given as two numbers.
    let given: Vec<usize> = std::env::args().skip(1).map(|word| word.parse().expect("a number of places")).collect();
    let places = match given[..] {
        [rows, rules] => Places { rows, rules },
        _ => Places { rows: 512, rules: 256 },
    };
    let file = streams::input();
    let mut out = io::stdout().lock();
    let mut line = |text: &[u8]| out.write_all(text).expect("standard output");
    if let Err(refusal) = run(&file, places, &mut line) {
        line(format!("E {} {}\n", refusal.number, refusal.place).as_bytes());
    }
}
