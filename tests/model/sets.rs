//! Sets of properties as words: closure, next closed set, reach (document 01, "Properties, rows, rules" and "The interview"), and
//! what a row's marks imply (request 5/13).

/// Two words: of a row the properties marked yes and no, of a rule its premise and conclusion.
pub type Pair = (u64, u64);

pub fn all(n: usize) -> u64 {
    if n >= 64 { u64::MAX } else { (1 << n) - 1 }
}

/// The smallest superset that contains the conclusion of each rule whose premise it contains.
pub fn closure(rules: &[Pair], set: u64) -> u64 {
    let mut set = set;
    loop {
        let before = set;
        for &(premise, conclusion) in rules {
            if premise & !set == 0 {
                set |= conclusion;
            }
        }
        if set == before {
            return set;
        }
    }
}

/// Ganter's next closed set: of two sets, the later holds the smallest property in which they differ.
pub fn next(rules: &[Pair], n: usize, set: u64) -> Option<u64> {
    for i in (0..n).rev() {
        let bit = 1u64 << i;
        if set & bit != 0 {
            continue;
        }
        let smaller = bit - 1;
        let candidate = closure(rules, set & smaller | bit);
        if candidate & smaller == set & smaller {
            return Some(candidate);
        }
    }
    None
}

/// M without every property marked no in some row whose yes marks contain the set, by the marks as written.
pub fn reach(rows: &[Pair], n: usize, set: u64) -> u64 {
    rows.iter().filter(|(yes, _)| set & !yes == 0).fold(all(n), |left, (_, no)| left & !no)
}

/// Whether a row refutes a rule by its marks as written.
pub fn refutes(row: Pair, rule: Pair) -> bool {
    rule.0 & !row.0 == 0 && rule.1 & row.1 != 0
}

/// What a row counts as having under some rules: the closure of its yes marks.
fn had(rules: &[Pair], row: Pair) -> u64 {
    closure(rules, row.0)
}

/// What a row counts as lacking under some rules: each property whose addition to its yes marks gives a closure that meets
/// its no marks. A row whose marks contradict the rules lacks everything.
fn lacked(rules: &[Pair], n: usize, (yes, no): Pair) -> u64 {
    let properties = (0..n).map(|i| 1 << i);
    properties.filter(|property| closure(rules, yes | property) & no != 0).fold(0, |set, property| set | property)
}

/// M without every property that is lacked by some row that has the set, by the marks that the rules imply.
pub fn implied_reach(rules: &[Pair], rows: &[Pair], n: usize, set: u64) -> u64 {
    let having = rows.iter().filter(|&&row| set & !had(rules, row) == 0);
    having.fold(all(n), |left, &row| left & !lacked(rules, n, row))
}

/// Whether a row refutes a rule by the marks that the rules imply.
pub fn implied_refutes(rules: &[Pair], n: usize, row: Pair, rule: Pair) -> bool {
    rule.0 & !had(rules, row) == 0 && rule.1 & lacked(rules, n, row) != 0
}
