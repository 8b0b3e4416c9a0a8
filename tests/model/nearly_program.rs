//! The program of request 3/13, written from the document alone: the oracle of the comparison, and what the benchmark
//! measures against.
//!
//!     nearly < TABLE
mod machine;
mod nearly;
mod sets;
mod streams;
mod table;

use std::io::{self, Write};

use table::Refusal;

const PERCENT: u64 = 80;

fn run(file: &[u8]) -> Result<Vec<u8>, Refusal> {
    let table = table::read(file)?;
    let (n, rows) = (table.properties, table.rows());
    let mut text = Vec::new();
    for premise in nearly::premises(n) {
        text.extend(b"N ");
        streams::show_pair(&mut text, n, (premise, nearly::listed(n, &rows, premise, PERCENT)));
        text.push(b'\n');
    }
    Ok(text)
}

fn main() {
    let text = run(&streams::input())
        .unwrap_or_else(|refusal| format!("E {} {}\n", refusal.number, refusal.place).into_bytes());
    io::stdout().write_all(&text).expect("standard output");
}
