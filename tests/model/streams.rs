//! What the programs read and write: a table file on standard input, sets as text.

use std::io::{self, Read};

use crate::sets::Pair;
use crate::table::MAX_BYTES;

/// Standard input, and of a file that is too long one byte more than a table may have, which tells that it is.
pub fn input() -> Vec<u8> {
    let mut file = Vec::new();
    io::stdin().take(MAX_BYTES as u64 + 1).read_to_end(&mut file).expect("standard input");
    file
}

fn show(out: &mut Vec<u8>, n: usize, set: u64) {
    out.extend((0..n).map(|i| if set >> i & 1 == 1 { b'X' } else { b'.' }));
}

/// Two sets over n properties, one character for each property.
pub fn show_pair(out: &mut Vec<u8>, n: usize, pair: Pair) {
    show(out, n, pair.0);
    out.push(b' ');
    show(out, n, pair.1);
}
