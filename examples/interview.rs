//! Holds an interview on the terminal over a table file whose marks may be unknown, and shows the rules agreed to.
//!
//!     tools/build zundrafl
//!     rustc --edition 2021 -O examples/interview.rs -L native=target/staticlib -o target/interview
//!     target/interview examples/tables/pets
//!
//! Exit status: 0 the interview is finished; 1 something was refused, or the replies ended first; 2 wrong use, or a file that cannot
//! be read or written.
#[path = "../include/zundrafl.rs"]
mod zundrafl;

use std::fs::{self, File, OpenOptions};
use std::io::{self, BufRead, Write};
use std::process::ExitCode;

use zundrafl::*;

const ROW_WORDS: usize = 2 * MOST_ROWS;
const RULE_WORDS: usize = 2 * MOST_RULES;
const MOST_NAME: usize = 80;
/// Of a log that is made.
const ANSWER_WORDS: usize = 3;

const USAGE: &str = "\
usage: interview [--background FILE] [--log FILE] [--save FILE] [--nearly PERCENT] TABLE
  TABLE       a table in Burmeister's layout; X yes, . no, ? unknown
  background  rules that hold from the start, one a line: has fur, flies -> breathes air
  log         the interview so far is taken up from it, and written to it as it goes
  save        the table with the rows and marks that you gave is written to it at the end
  nearly      shown first: what more than this percentage of the rows with a property have too, and the rows that stand in the way
Answer a question with yes (y), or with no (n) and a row of marks that refutes it; behind the marks the row may get a name.
A mark that the rules imply may stay unknown. At a question, and when the interview is finished, row (r) and marks file a row that need
not refute anything, and mark (m) fills in a mark that was unknown: mark cat flies no. There a row is called by its name, or as row 3.
At a question test (t) and marks say whether a row refutes it, and file nothing.
At any time list (l) shows the rules so far, and holds (h) says of a rule whether it follows from them, is refuted, or is open:
holds has fur, flies -> breathes air. What follows goes on following, and what is refuted stays refuted.
";

/// Why an interview cannot go on: what to say, and the exit status.
struct Stop(String, u8);

fn wrong(what: &str, path: &str) -> Stop {
    Stop(format!("{path}: {what}\n"), 2)
}

/// A refusal number, what it means and what to do next.
fn sentence(number: u64) -> String {
    let mut words = [0; 256];
    // SAFETY: the buffer has as many bytes as is said.
    let length = unsafe { zundrafl_sentence(number, words.as_mut_ptr(), words.len()) };
    format!("Refused with {number}. {}\n", String::from_utf8_lossy(&words[..length]))
}

fn white(byte: &u8) -> bool {
    b" \t\n\x0b\x0c\r".contains(byte)
}

/// The first word of a text and what stands behind it, without the white space around them.
fn first_word(text: &[u8]) -> (&[u8], &[u8]) {
    let start = text.iter().position(|b| !white(b)).unwrap_or(text.len());
    let end = text.iter().rposition(|b| !white(b)).map_or(start, |last| last + 1);
    let text = &text[start..end];
    let (word, rest) = text.split_at(text.iter().position(white).unwrap_or(text.len()));
    (word, &rest[rest.iter().position(|b| !white(b)).unwrap_or(0)..])
}

/// A text without the white space behind it.
fn trimmed_end(text: &[u8]) -> &[u8] {
    &text[..text.iter().rposition(|b| !white(b)).map_or(0, |last| last + 1)]
}

/// A text before its last word, yes or no, and whether that is yes.
fn before_reply(text: &[u8]) -> Option<(&[u8], bool)> {
    let (before, last) = text.split_at(text.iter().rposition(white)? + 1);
    let yes = match last.to_ascii_lowercase().as_slice() {
        b"yes" | b"y" => true,
        b"no" | b"n" => false,
        _ => return None,
    };
    Some((trimmed_end(before), yes))
}

/// A table file and the session over it, with the words that are lent to every call.
struct Interview {
    file: Vec<u8>,
    layout: Layout,
    session: Session,
    rows: Vec<u64>,
    list: Vec<u64>,
    background: Vec<u64>,
    objects: Vec<String>,
    attributes: Vec<String>,
    /// The names of the rows given, empty for one without a name.
    filed: Vec<Vec<u8>>,
}

impl Interview {
    /// Opens the table file; the session is not open yet.
    fn read(path: &str) -> Result<Interview, Stop> {
        let file = fs::read(path).map_err(|_| wrong("cannot be read", path))?;
        let (mut layout, mut a, mut rows) = (Layout::default(), Answer::default(), vec![0; ROW_WORDS]);
        let (f, size) = (file.as_ptr(), file.len());
        // SAFETY, here and below: each pointer leads to as many elements as its length says, and what is written overlaps nothing.
        unsafe { zundrafl_open_table(&mut layout, f, size, &mut a) };
        if a.code == TAKEN {
            unsafe { zundrafl_read_marks(&layout, f, size, rows.as_mut_ptr(), ROW_WORDS, &mut a) };
        }
        if a.code != TAKEN {
            let ends = |i: &usize| file[*i] == b'\n' || file[*i] == b'\r' && file.get(i + 1) != Some(&b'\n');
            let line = 1 + (0..size.min(a.first as usize)).filter(ends).count();
            return Err(Stop(format!("{path}, line {line}: {}", sentence(a.code)), 1));
        }
        let name = |a: &Answer| String::from_utf8_lossy(&file[a.first as usize..][..a.second as usize]).into_owned();
        let mut object = |i| {
            unsafe { zundrafl_object_name(&layout, f, size, i, &mut a) };
            name(&a)
        };
        let objects = (0..layout.objects).map(&mut object).collect();
        let mut attribute = |i| {
            unsafe { zundrafl_attribute_name(&layout, f, size, i, &mut a) };
            name(&a)
        };
        let attributes = (0..layout.attributes).map(&mut attribute).collect();
        let (session, list) = (Session::default(), vec![0; RULE_WORDS]);
        Ok(Interview { file, layout, session, rows, list, background: Vec::new(), objects, attributes, filed: Vec::new() })
    }

    /// Rules that hold from the start, one a line.
    fn read_background(&mut self, path: &str) -> Result<(), Stop> {
        let text = fs::read_to_string(path).map_err(|_| wrong("cannot be read", path))?;
        for (number, line) in text.lines().enumerate().filter(|(_, line)| !line.trim().is_empty()) {
            match self.rule(line) {
                Some(rule) if self.background.len() < RULE_WORDS => self.background.extend(rule),
                _ => {
                    let what = "not a rule over the properties of the table, or one too many";
                    return Err(Stop(format!("{path}, line {}: {what}\n", number + 1), 2));
                }
            }
        }
        Ok(())
    }

    /// Opens the session and makes the calls of the log, if there are any.
    fn take_up(&mut self, path: Option<&str>) -> Result<Option<File>, Stop> {
        let mut calls: Vec<[u64; 4]> = Vec::new();
        let log = path.and_then(|path| fs::read(path).ok()).unwrap_or_default();
        for line in log.split_inclusive(|b| *b == b'\n') {
            let call = match first_word(line) {
                (b"step", b"") => Some([STEP, 0, 0, 0]),
                (b"yes", b"") => Some([YES, 0, 0, 0]),
                (word @ (b"no" | b"row"), row) => {
                    self.named_row(row).filter(|(_, name)| name.len() <= MOST_NAME).map(|((yes, no), name)| {
                        self.filed.push(name.to_vec());
                        [if word == b"no" { NO } else { FILE }, yes, no, 0]
                    })
                }
                (b"mark", marks) => self.named_row(marks).and_then(|((yes, no), row)| {
                    let row = number(std::str::from_utf8(row).ok()?)?;
                    Some([FILL, row.wrapping_sub(1), yes, no])
                }),
                _ => None,
            };
            calls.push(call.ok_or_else(|| wrong("is no log of this table", path.unwrap_or_default()))?);
        }
        let (calls, mut answers, mut a) = (calls.concat(), vec![0; ANSWER_WORDS * calls.len()], Answer::default());
        let (n, used) = (self.attributes.len(), self.objects.len());
        let ((r, l), (b, b_words)) = ((self.rows.as_mut_ptr(), self.list.as_mut_ptr()), (self.background.as_ptr(), self.background.len()));
        let ((c, c_words), (w, w_words)) = ((calls.as_ptr(), calls.len()), (answers.as_mut_ptr(), answers.len()));
        unsafe { zundrafl_open_and_replay(&mut self.session, n, used, r, ROW_WORDS, l, RULE_WORDS, b, b_words, c, c_words, w, w_words, &mut a) };
        if a.code != TAKEN {
            return Err(self.refused(a));
        }
        if answers.chunks(ANSWER_WORDS).any(|a| a[0] < 100) {
            return Err(wrong("was written over another table or background", path.unwrap_or_default()));
        }
        path.map(|path| OpenOptions::new().create(true).append(true).open(path).map_err(|_| wrong("cannot be written", path))).transpose()
    }

    fn step(&mut self) -> Answer {
        let mut a = Answer::default();
        let (r, l, b) = (self.rows.as_ptr(), self.list.as_ptr(), self.background.as_ptr());
        unsafe { zundrafl_step(&mut self.session, r, ROW_WORDS, l, RULE_WORDS, b, self.background.len(), &mut a) };
        a
    }

    fn accept(&mut self) -> Answer {
        let mut a = Answer::default();
        let (r, l, b) = (self.rows.as_ptr(), self.list.as_mut_ptr(), self.background.as_ptr());
        unsafe { zundrafl_accept(&mut self.session, r, ROW_WORDS, l, RULE_WORDS, b, self.background.len(), &mut a) };
        a
    }

    fn reject(&mut self, yes: u64, no: u64) -> Answer {
        let mut a = Answer::default();
        let (r, l, b) = (self.rows.as_mut_ptr(), self.list.as_ptr(), self.background.as_ptr());
        unsafe { zundrafl_reject(&mut self.session, r, ROW_WORDS, l, RULE_WORDS, b, self.background.len(), yes, no, &mut a) };
        a
    }

    fn test_row(&self, yes: u64, no: u64) -> Answer {
        let mut a = Answer::default();
        let (r, l, b) = (self.rows.as_ptr(), self.list.as_ptr(), self.background.as_ptr());
        unsafe { zundrafl_test_row(&self.session, r, ROW_WORDS, l, RULE_WORDS, b, self.background.len(), yes, no, &mut a) };
        a
    }

    fn file_row(&mut self, yes: u64, no: u64) -> Answer {
        let mut a = Answer::default();
        let (r, l, b) = (self.rows.as_mut_ptr(), self.list.as_ptr(), self.background.as_ptr());
        unsafe { zundrafl_file_row(&mut self.session, r, ROW_WORDS, l, RULE_WORDS, b, self.background.len(), yes, no, &mut a) };
        a
    }

    fn fill_row(&mut self, row: usize, yes: u64, no: u64) -> Answer {
        let mut a = Answer::default();
        let (r, l, b) = (self.rows.as_mut_ptr(), self.list.as_ptr(), self.background.as_ptr());
        unsafe { zundrafl_fill_row(&mut self.session, r, ROW_WORDS, l, RULE_WORDS, b, self.background.len(), row, yes, no, &mut a) };
        a
    }

    fn follows(&self, [premise, conclusion]: [u64; 2]) -> Answer {
        let mut a = Answer::default();
        let (r, l, b) = (self.rows.as_ptr(), self.list.as_ptr(), self.background.as_ptr());
        unsafe { zundrafl_follows(&self.session, r, ROW_WORDS, l, RULE_WORDS, b, self.background.len(), premise, conclusion, &mut a) };
        a
    }

    fn refuted(&self, [premise, conclusion]: [u64; 2]) -> Answer {
        let mut a = Answer::default();
        let (r, l, b) = (self.rows.as_ptr(), self.list.as_ptr(), self.background.as_ptr());
        unsafe { zundrafl_refuted(&self.session, r, ROW_WORDS, l, RULE_WORDS, b, self.background.len(), premise, conclusion, &mut a) };
        a
    }

    fn named(&self, set: u64) -> String {
        let names: Vec<_> = self.attributes.iter().enumerate().filter(|(i, _)| set >> i & 1 == 1).map(|(_, name)| name.as_str()).collect();
        if names.is_empty() { "nothing".to_string() } else { names.join(", ") }
    }

    /// Names between commas, or nothing.
    fn set(&self, text: &str) -> Option<u64> {
        let names = text.split(',').map(str::trim).filter(|name| *name != "nothing");
        names.map(|name| self.attributes.iter().position(|a| a == name).map(|i| 1 << i)).try_fold(0, |set, bit| Some(set | bit?))
    }

    /// A rule: names, an arrow, names.
    fn rule(&self, text: &str) -> Option<[u64; 2]> {
        let (premise, conclusion) = text.split_once("->")?;
        Some([self.set(premise)?, self.set(conclusion)?])
    }

    /// A row as the table file writes it: X yes, . no, ? unknown.
    fn row(&self, marks: &[u8]) -> Option<(u64, u64)> {
        if marks.len() != self.attributes.len() || !marks.iter().all(|b| b"Xx.?".contains(b)) {
            return None;
        }
        let pick = |wanted: &[u8]| marks.iter().enumerate().filter(|(_, b)| wanted.contains(b)).fold(0, |w, (i, _)| w | 1u64 << i);
        Some((pick(b"Xx"), pick(b".")))
    }

    /// A row, and behind it its name or nothing; a carriage return would end the name's line.
    fn named_row<'a>(&self, text: &'a [u8]) -> Option<((u64, u64), &'a [u8])> {
        let (marks, name) = first_word(text);
        Some((self.row(marks)?, name)).filter(|(_, name)| !name.contains(&b'\r'))
    }

    fn marks(&self, yes: u64, no: u64) -> String {
        (0..self.attributes.len()).map(|i| if yes >> i & 1 == 1 { 'X' } else if no >> i & 1 == 1 { '.' } else { '?' }).collect()
    }

    fn row_name(&self, row: usize) -> String {
        let name = match row.checked_sub(self.objects.len()) {
            None => self.objects[row].clone(),
            Some(filed) if self.filed[filed].is_empty() => format!("the {}. of your rows", filed + 1),
            Some(filed) => String::from_utf8_lossy(&self.filed[filed]).into_owned(),
        };
        format!("row {} ({name})", row + 1)
    }

    /// The name of a row as the table that is saved has it.
    fn saved_name(&self, row: usize) -> String {
        match row.checked_sub(self.objects.len()) {
            None => self.objects[row].clone(),
            Some(filed) if self.filed[filed].is_empty() => format!("row {}", row + 1),
            Some(filed) => String::from_utf8_lossy(&self.filed[filed]).into_owned(),
        }
    }

    /// The row and the property that a text calls, with white space between, or what is wrong: the row by its name or by its number.
    fn place(&self, text: &[u8]) -> Result<(usize, u64), &'static str> {
        let (text, mut named, mut found) = (String::from_utf8_lossy(text), false, Vec::new());
        for (i, name) in self.attributes.iter().enumerate() {
            let Some(before) = text.as_bytes().strip_suffix(name.as_bytes()) else { continue };
            let row = trimmed_end(before);
            if before.is_empty() || row.len() < before.len() {
                named = true;
                let called = |j: &usize| row == self.saved_name(*j).as_bytes() || row == format!("row {}", j + 1).as_bytes();
                found.extend((0..self.session.rows).filter(called).map(|j| (j, 1 << i)));
            }
        }
        match found[..] {
            [place] => Ok(place),
            [] if !named => Err("No property is called so.\n"),
            [] => Err("No row is called so: write its name, or row and its number.\n"),
            _ => Err("More than one mark is called so: write row and the row's number.\n"),
        }
    }

    /// The closure of a set under the rules in force and one rule more.
    fn closure(&self, mut set: u64, rule: [u64; 2]) -> u64 {
        loop {
            let before = set;
            for r in self.background.chunks(2).chain(self.list[..2 * self.session.rules].chunks(2)).chain([&rule[..]]) {
                set |= if r[0] & set == r[0] { r[1] } else { 0 };
            }
            if set == before {
                return set;
            }
        }
    }

    /// Why a row contradicts the rules in force with one more, {} -> {} where there is none. Which properties of the conclusion it lacks
    /// is open: one that it is known to lack would not have been asked about.
    fn explained(&self, row: usize, rule: [u64; 2]) -> String {
        let (yes, no) = (self.rows[2 * row], self.rows[2 * row + 1]);
        let missing = self.named(self.closure(yes, rule) & no);
        let what = format!("It is {}: it has {}, so by the rules it would have {missing}, which it lacks.\n", self.row_name(row), self.named(yes));
        if rule[1] == 0 {
            return what;
        }
        let had = self.closure(yes, [0, 0]);
        let (lacked, marks) = (self.named(rule[1] & !had), self.marks(had, no));
        format!("{what}It lacks at least one of {lacked}. If it is right, answer with a dot for each that it lacks: no {marks}\n")
    }

    fn refused(&self, a: Answer) -> Stop {
        let row = a.first as usize;
        Stop(
            match a.code {
                MARKED_TWICE => format!("{}{}\n", sentence(a.code), self.row_name(row)),
                ROW_CONTRADICTS => format!("{}{}", sentence(a.code), self.explained(row, [0, 0])),
                _ => sentence(a.code),
            },
            1,
        )
    }

    /// The rows with the premise whose mark for the property is not yes: those marked no, then those unknown.
    fn in_way(&self, premise: u64, property: u64) -> String {
        let rows = (0..self.session.rows).filter(|row| self.rows[2 * row] & (premise | property) == premise);
        let (lacking, unknown): (Vec<_>, Vec<_>) = rows.partition(|row| self.rows[2 * row + 1] & property != 0);
        let names = |rows: &[usize]| rows.iter().map(|row| self.saved_name(*row)).collect::<Vec<_>>().join(", ");
        match (names(&lacking).as_str(), names(&unknown).as_str()) {
            ("", "") => ", always so far".to_string(),
            ("", unknown) => format!(", not known for: {unknown}"),
            (lacking, "") => format!(", but not: {lacking}"),
            (lacking, unknown) => format!(", but not: {lacking}; not known for: {unknown}"),
        }
    }

    /// What nearly every row with a property has too, and the rows that stand in the way. With premises of two properties the list gets
    /// long: the program `nearly` has them.
    fn nearly(&self, percent: u64) -> Result<String, Stop> {
        let (n, mut a, mut lines) = (self.attributes.len(), Answer::default(), String::new());
        for i in 0..n {
            unsafe { zundrafl_nearly(n, self.session.rows, self.rows.as_ptr(), ROW_WORDS, 1 << i, percent, &mut a) };
            if a.code != TAKEN {
                return Err(self.refused(a));
            }
            for j in (0..n).filter(|j| a.first >> j & 1 == 1) {
                lines += &format!("{} -> {}{}\n", self.attributes[i], self.attributes[j], self.in_way(1 << i, 1 << j));
            }
        }
        let nothing = if lines.is_empty() { " nothing so far" } else { "" };
        Ok(format!("Nearly always (more than {percent} per cent):{nothing}\n{lines}"))
    }

    /// What is asked: the question, or with an empty conclusion, when the interview is finished, whether there is another row or mark.
    fn asked(&self, [premise, conclusion]: [u64; 2]) -> String {
        if conclusion == 0 {
            return "Finished. Another row or mark, or an empty line: ".to_string();
        }
        let with = if premise == 0 { String::new() } else { format!(" with {}", self.named(premise)) };
        format!("Does every row{with} have {}? ", self.named(conclusion))
    }

    /// Takes a row, with a no or by itself: the call for the log, or what to say.
    fn take_row(&mut self, call: &str, (yes, no): (u64, u64), name: &[u8]) -> Result<Vec<u8>, String> {
        if name.len() > MOST_NAME {
            return Err(format!("A name has at most {MOST_NAME} bytes.\n"));
        }
        let a = if call == "no" { self.reject(yes, no) } else { self.file_row(yes, no) };
        if a.code != TAKEN {
            return Err(sentence(a.code));
        }
        self.filed.push(name.to_vec());
        let (marks, between) = (self.marks(yes, no), if name.is_empty() { "" } else { " " });
        Ok([format!("{call} {marks}{between}").as_bytes(), name].concat())
    }

    /// Takes a mark of a row, both called by their names: the call for the log, or what to say.
    fn take_mark(&mut self, text: &[u8], yes: bool) -> Result<Vec<u8>, String> {
        let (row, property) = self.place(text)?;
        let (yes, no) = if yes { (property, 0) } else { (0, property) };
        match self.fill_row(row, yes, no) {
            a if a.code == TAKEN => Ok(format!("mark {} {}", self.marks(yes, no), row + 1).into_bytes()),
            a => Err(sentence(a.code)),
        }
    }

    /// Shows how far the interview is, and the rules agreed to.
    fn show_rules(&self, finished: bool) {
        println!("{} rules, {} rows{}", self.session.rules, self.session.rows, if finished { "" } else { ", not finished" });
        for rule in self.list[..2 * self.session.rules].chunks(2) {
            println!("{} -> {}", self.named(rule[0]), self.named(rule[1]));
        }
    }

    /// What is known so far of a rule over the properties of the table: an answer that no later reply takes back, or that it is open.
    fn known(&self, rule: [u64; 2]) -> Result<String, String> {
        let a = self.follows(rule);
        if a.code == FOLLOWS && a.first == 1 {
            return Ok("It follows from the rules.".to_string());
        }
        match self.refuted(rule) {
            a if a.code == REFUTED => Ok(format!("It is refuted by {}.", self.row_name(a.first as usize))),
            a if a.code == UNREFUTED => Ok("It is open.".to_string()),
            a => Err(sentence(a.code)),
        }
    }

    /// What may be written to what is asked.
    fn hint(&self, asked: bool) -> String {
        let (first, last) = if asked { ("yes, or no, row or test", "") } else { ("row", "; or an empty line") };
        let others = "or mark, a row, a property and yes or no; or list; or holds and a rule";
        format!("Write {first} and {} marks: X yes, . no, ? unknown; {others}{last}.\n", self.attributes.len())
    }

    /// One line to what is asked: the call for the log, nothing where something was shown, or what to say.
    fn reply(&mut self, line: &[u8], rule: [u64; 2]) -> Result<Option<Vec<u8>>, String> {
        let ((said, rest), asked) = (first_word(line), rule[1] != 0);
        match (said.to_ascii_lowercase().as_slice(), rest, self.named_row(rest), before_reply(rest)) {
            (b"yes" | b"y", b"", _, _) if asked => match self.accept() {
                a if a.code == TAKEN => Ok(Some(b"yes".to_vec())),
                a if a.code == REPLY_CONTRADICTS => Err(sentence(a.code) + &self.explained(a.first as usize, rule)),
                a => Err(sentence(a.code)),
            },
            (b"no" | b"n", _, Some((row, name)), _) if asked => self.take_row("no", row, name).map(Some),
            (b"row" | b"r", _, Some((row, name)), _) => self.take_row("row", row, name).map(Some),
            (b"mark" | b"m", _, _, Some((place, yes))) => self.take_mark(place, yes).map(Some),
            (b"test" | b"t", _, Some(((yes, no), b"")), _) if asked => match self.test_row(yes, no) {
                a if a.code == REFUTES => {
                    println!("It refutes the question.");
                    Ok(None)
                }
                a => Err(sentence(a.code)),
            },
            (b"list" | b"l", b"", _, _) => {
                self.show_rules(!asked);
                Ok(None)
            }
            (b"holds" | b"h", _, _, _) => {
                let rule = self.rule(&String::from_utf8_lossy(rest)).ok_or_else(|| self.hint(asked))?;
                println!("{}", self.known(rule)?);
                Ok(None)
            }
            _ => Err(self.hint(asked)),
        }
    }

    /// Writes the table with the rows given in it.
    fn save(&self, path: &str) -> Result<(), Stop> {
        let Layout { object_names, attribute_names, .. } = self.layout;
        let mut names = self.file[object_names..attribute_names].to_vec();
        for (name, number) in self.filed.iter().zip(self.objects.len() + 1..) {
            names.extend(if name.is_empty() { format!("row {number}").into_bytes() } else { name.clone() });
            names.push(b'\n');
        }
        names.extend(&self.file[attribute_names..]);
        let (mut text, mut a) = (vec![0; MOST_BYTES], Answer::default());
        let ((m, m_len), (o, o_len)) = ((names.as_ptr(), names.len()), (text.as_mut_ptr(), text.len()));
        unsafe { zundrafl_write_table(self.session.n, self.session.rows, self.rows.as_ptr(), ROW_WORDS, m, m_len, o, o_len, &mut a) };
        if a.code != TAKEN {
            return Err(self.refused(a));
        }
        fs::write(path, &text[..a.first as usize]).map_err(|_| wrong("cannot be written", path))
    }
}

fn write_call(record: &mut Option<File>, call: &[u8]) -> Result<(), Stop> {
    record.as_mut().map_or(Ok(()), |file| file.write_all(&[call, b"\n"].concat())).map_err(|_| wrong("cannot be written", "the log"))
}

fn hold(files: &Files) -> Result<bool, Stop> {
    let mut it = Interview::read(&files.table)?;
    if let Some(path) = &files.rules {
        it.read_background(path)?;
    }
    let mut record = it.take_up(files.log.as_deref())?;
    if let Some(percent) = files.nearly {
        println!("{}", it.nearly(percent)?);
    }
    let mut lines = io::stdin().lock().split(b'\n');
    let finished = loop {
        let a = it.step();
        match a.code {
            MOVED => write_call(&mut record, b"step")?,
            ASKED | FINISHED => {
                let (rule, finished) = ([a.first, a.second], a.code == FINISHED);
                print!("{}", it.asked(rule));
                let _ = io::stdout().flush();
                let Some(Ok(line)) = lines.next() else { break finished };
                if finished && first_word(&line).0.is_empty() {
                    break true;
                }
                match it.reply(&line, rule) {
                    Ok(Some(call)) => write_call(&mut record, &call)?,
                    Ok(None) => {}
                    Err(why) => eprint!("{why}"),
                }
            }
            _ => return Err(it.refused(a)),
        }
    };
    println!();
    it.show_rules(finished);
    if let Some(path) = &files.save {
        it.save(path)?;
    }
    Ok(finished)
}

/// The files of the command line, and the percentage.
struct Files {
    table: String,
    rules: Option<String>,
    log: Option<String>,
    save: Option<String>,
    nearly: Option<u64>,
}

/// A number in digits; one too long for a word is the largest word.
fn number(text: &str) -> Option<u64> {
    let digits = !text.is_empty() && text.bytes().all(|b| b.is_ascii_digit());
    digits.then(|| text.parse().unwrap_or(u64::MAX))
}

/// What the command line names; nothing where it is wrong.
fn arguments() -> Option<Files> {
    let (mut table, mut rules, mut log, mut save, mut nearly) = (None, None, None, None, None);
    let mut args = std::env::args().skip(1);
    while let Some(arg) = args.next() {
        match arg.as_str() {
            "--background" => rules = Some(args.next()?),
            "--log" => log = Some(args.next()?),
            "--save" => save = Some(args.next()?),
            "--nearly" => nearly = Some(number(&args.next()?)?),
            _ if !arg.starts_with('-') && table.is_none() => table = Some(arg),
            _ => return None,
        }
    }
    Some(Files { table: table?, rules, log, save, nearly })
}

fn main() -> ExitCode {
    if std::env::args().any(|arg| arg == "--help") {
        print!("{USAGE}");
        return ExitCode::SUCCESS;
    }
    let Some(files) = arguments() else {
        eprint!("{USAGE}");
        return ExitCode::from(2);
    };
    match hold(&files) {
        Ok(finished) => ExitCode::from(u8::from(!finished)),
        Err(Stop(what, status)) => {
            eprint!("{what}");
            ExitCode::from(status)
        }
    }
}
