//! Scripts over table files, whole and damaged, with right and wrong layouts, and over tables to write.

use crate::Tally;
use crate::fenced::{FENCE_ANSWER, FENCE_WORD, Fenced};
use crate::library::{
    zundrafl_attribute_name, zundrafl_object_name, zundrafl_open_complete_table, zundrafl_open_table,
    zundrafl_read_marks, zundrafl_write_table,
};
use crate::machine::{ACCEPTED, Answer, MAX_PROPERTIES, MAX_ROW_WORDS};
use crate::opened::{self, Layout};
use crate::random::Random;
use crate::sets;
use crate::table::{self, MAX_BYTES, MAX_NAME, MAX_ROWS};
use crate::{hex, show};

/// The kinds of call, each with the codes that it can give.
pub const KINDS: &[(&str, &[u64])] = &[
    ("open_table", &[21, 22, 23, 24, 25, 26, 27, 28, 103]),
    ("open_complete", &[21, 22, 23, 24, 25, 26, 27, 28, 29, 103]),
    ("read_marks", &[2, 3, 21, 22, 23, 24, 25, 26, 27, 28, 103]),
    ("object_name", &[3, 103]),
    ("attribute_name", &[3, 103]),
    ("write_table", &[1, 2, 3, 4, 5, 26, 30, 103]),
];

const FENCE_BYTE: u8 = 0xfe;
const FENCE_LAYOUT: Layout =
    Layout { objects: 0xfe4c, attributes: 0xfe4c, object_names: 0xfe4c, attribute_names: 0xfe4c, marks: 0xfe4c };

#[derive(Clone, Copy)]
enum Call {
    OpenTable,
    OpenComplete,
    ReadMarks,
    ObjectName(usize),
    AttributeName(usize),
    WriteTable { n: usize, used: usize },
}

/// What is lent to a call, before and after it.
#[derive(Clone, PartialEq)]
struct State {
    layout: Layout,
    file: Vec<u8>,
    rows: Vec<u64>,
    /// Of a table to write, as lines.
    names: Vec<u8>,
    /// Where it is written.
    out: Vec<u8>,
}

#[derive(PartialEq)]
struct Outcome {
    answer: Answer,
    state: State,
    /// Nothing outside the lent memory was written.
    inside: bool,
}

impl Call {
    fn kind(self) -> &'static str {
        match self {
            Call::OpenTable => "open_table",
            Call::OpenComplete => "open_complete",
            Call::ReadMarks => "read_marks",
            Call::ObjectName(_) => "object_name",
            Call::AttributeName(_) => "attribute_name",
            Call::WriteTable { .. } => "write_table",
        }
    }

    fn show(self) -> String {
        match self {
            Call::ObjectName(number) | Call::AttributeName(number) => format!("{} {number}", self.kind()),
            Call::WriteTable { n, used } => format!("{} of {n} properties and {used} rows", self.kind()),
            _ => self.kind().to_string(),
        }
    }
}

fn by_model(state: &State, call: Call) -> Outcome {
    let mut state = state.clone();
    let State { layout, file, rows, names, out } = &mut state;
    let answer = match call {
        Call::OpenTable => opened::open_table(layout, file),
        Call::OpenComplete => opened::open_complete(layout, file),
        Call::ReadMarks => opened::read_marks(layout, file, rows),
        Call::ObjectName(number) => opened::object_name(layout, file, number),
        Call::AttributeName(number) => opened::attribute_name(layout, file, number),
        Call::WriteTable { n, used } => opened::write_table(n, used, rows, names, out),
    };
    Outcome { answer, state, inside: true }
}

fn by_library(state: &State, call: Call) -> Outcome {
    let mut layout = Fenced::new(&[state.layout], FENCE_LAYOUT);
    let mut answer = Fenced::new(&[FENCE_ANSWER], FENCE_ANSWER);
    let mut file = Fenced::new(&state.file, FENCE_BYTE);
    let mut rows = Fenced::new(&state.rows, FENCE_WORD);
    let mut names = Fenced::new(&state.names, FENCE_BYTE);
    let mut out = Fenced::new(&state.out, FENCE_BYTE);

    let (t, a) = (layout.lend().0.cast(), answer.lend().0.cast());
    let ((f, f_len), (r, r_len)) = (file.lend(), rows.lend());
    let ((m, m_len), (o, o_len)) = (names.lend(), out.lend());
    // SAFETY: each pointer leads to as many elements as its length says, and all of them outlive the call.
    unsafe {
        match call {
            Call::OpenTable => zundrafl_open_table(t, f, f_len, a),
            Call::OpenComplete => zundrafl_open_complete_table(t, f, f_len, a),
            Call::ReadMarks => zundrafl_read_marks(t, f, f_len, r, r_len, a),
            Call::ObjectName(number) => zundrafl_object_name(t, f, f_len, number, a),
            Call::AttributeName(number) => zundrafl_attribute_name(t, f, f_len, number, a),
            Call::WriteTable { n, used } => zundrafl_write_table(n, used, r, r_len, m, m_len, o, o_len, a),
        }
    }

    Outcome {
        answer: answer.content()[0],
        state: State {
            layout: layout.content()[0],
            file: file.content().to_vec(),
            rows: rows.content().to_vec(),
            names: names.content().to_vec(),
            out: out.content().to_vec(),
        },
        inside: layout.intact() && answer.intact() && rows.intact() && [&file, &names, &out].iter().all(|b| b.intact()),
    }
}

fn bytes(text: &[u8]) -> String {
    format!("{} bytes: \"{}\"", text.len(), text.escape_ascii())
}

fn show_call(state: &State, call: Call) -> String {
    let State { layout, file, rows, names, out } = state;
    let (call, rows, length) = (call.show(), hex(rows), out.len());
    let (file, names) = (bytes(file), bytes(names));
    format!("{call}\n  {layout:?}\n  rows {rows}\n  file, {file}\n  names, {names}\n  output, {length} bytes\n")
}

fn show_outcome(outcome: &Outcome, before: &State) -> String {
    let Outcome { answer, state, inside } = outcome;
    let changed = if state.file == before.file { "" } else { "  the file was changed\n" };
    let renamed = if state.names == before.names { "" } else { "  the names were changed\n" };
    let outside = if *inside { "" } else { "  written outside the lent memory\n" };
    let (answer, layout, rows, out) = (show(answer), state.layout, hex(&state.rows), bytes(&state.out));
    format!("  answer {answer}\n  {layout:?}\n  rows {rows}\n  output, {out}\n{changed}{renamed}{outside}")
}

struct Script<'a> {
    random: Random,
    tally: &'a mut Tally,
}

pub fn play(random: Random, tally: &mut Tally) -> Result<(), String> {
    let mut script = Script { random, tally };
    let mut file = script.file();
    script.look(&file, None)?;
    let before = script.right_layout(&file);
    script.damage(&mut file);
    script.look(&file, before)
}

impl Script<'_> {
    fn chance(&mut self, one_in: usize) -> bool {
        self.random.below(one_in) == 0
    }

    /// Makes a call by library and model from the same state; what both give.
    fn call(&mut self, state: &State, call: Call) -> Result<Outcome, String> {
        if self.tally.loud {
            print!("{}", show_call(state, call));
        }
        let expected = by_model(state, call);
        let found = by_library(state, call);
        if found != expected {
            let (model, library) = (show_outcome(&expected, state), show_outcome(&found, state));
            return Err(format!("failing call:\n{}model:\n{model}library:\n{library}", show_call(state, call)));
        }
        self.tally.add(call.kind(), expected.answer.code);
        Ok(expected)
    }

    /// Every call over a file; `other` is the layout of a file like it.
    fn look(&mut self, file: &[u8], other: Option<Layout>) -> Result<(), String> {
        let right = self.right_layout(file);
        let objects = right.map_or(4, |layout| layout.objects);
        let mut state = self.state(file);
        self.call(&state, Call::OpenTable)?;
        self.call(&state, Call::OpenComplete)?;
        for _ in 0..3 {
            let length = match self.random.below(6) {
                0 => 2 * self.random.below(objects + 1),
                1 => 2 * objects + 1,
                2 => MAX_ROW_WORDS + self.random.below(4),
                3 => 2 * self.random.below(MAX_ROWS + 1),
                _ => 2 * objects,
            };
            state.rows = self.random.words(length);
            state.layout = self.likely_layout(right, other);
            self.call(&state, Call::ReadMarks)?;
        }
        state.rows.clear();
        for _ in 0..4 {
            state.layout = self.likely_layout(right, other);
            let number = self.any_number(state.layout.objects);
            self.call(&state, Call::ObjectName(number))?;
            let number = self.any_number(state.layout.attributes);
            self.call(&state, Call::AttributeName(number))?;
        }
        right.map_or(Ok(()), |layout| self.write_like(file, layout))
    }

    /// A file with any layout, and no words or names.
    fn state(&mut self, file: &[u8]) -> State {
        State { layout: self.any_layout(), file: file.to_vec(), rows: vec![], names: vec![], out: vec![] }
    }

    /// Writes what a file holds, then tables like it and tables as long as can be, with anything wrong.
    fn write_like(&mut self, file: &[u8], layout: Layout) -> Result<(), String> {
        let (n, used) = (layout.attributes, layout.objects);
        let mut held = self.state(&[]);
        held.rows = self.random.words(2 * used);
        opened::read_marks(&layout, file, &mut held.rows);
        let end = if self.chance(2) { layout.marks } else { file.len() };
        held.names = file[layout.object_names..end].to_vec();
        let spare = self.random.below(4).min(MAX_ROWS - used);
        held.rows.extend(self.random.words(2 * spare));
        held.out = self.output(&held, n, used);
        self.write(&held, n, used)?;
        for _ in 0..4 {
            let long = self.chance(25);
            let (mut state, mut n, mut used) = if long { self.long_table() } else { (held.clone(), n, used) };
            for _ in 0..self.random.below(3) {
                match self.random.below(4) {
                    0 => self.damage_counts(&mut n, &mut used),
                    1 | 2 => self.damage_rows(&mut state.rows, n, used),
                    _ => self.damage_names(&mut state.names, n, used),
                }
            }
            state.out = self.output(&state, n, used);
            self.write(&state, n, used)?;
        }
        Ok(())
    }

    /// Writes a table; a text is read again, and what was read written once more.
    fn write(&mut self, state: &State, n: usize, used: usize) -> Result<(), String> {
        let call = Call::WriteTable { n, used };
        let written = self.call(state, call)?;
        if written.answer.code != ACCEPTED {
            return Ok(());
        }
        let mut read = self.state(&written.state.out[..written.answer.first as usize]);
        read.layout = self.call(&read, Call::OpenTable)?.state.layout;
        read.rows = self.random.words(2 * used);
        read.rows = self.call(&read, Call::ReadMarks)?.state.rows;
        let mut same = read.rows == state.rows[..2 * used];

        let names = table::lent_names(&state.names, used + n).expect("the names of a table that was written");
        let (row_names, property_names) = names.split_at(used);
        let rows = self.some_numbers(used).into_iter().map(|i| (Call::ObjectName(i), row_names[i]));
        let properties = self.some_numbers(n).into_iter().map(|i| (Call::AttributeName(i), property_names[i]));
        for (call, name) in rows.chain(properties) {
            let found = self.call(&read, call)?.answer;
            same &= read.file[found.first as usize..][..found.second as usize] == *name;
        }

        read.names = read.file[read.layout.object_names..].to_vec();
        read.out = vec![0; read.file.len()];
        same &= self.call(&read, call)?.state.out == read.file;
        if same { Ok(()) } else { Err(format!("what was written reads otherwise:\n{}", show_call(state, call))) }
    }

    /// All numbers below a small count, else some of them.
    fn some_numbers(&mut self, count: usize) -> Vec<usize> {
        if count <= 8 { (0..count).collect() } else { (0..8).map(|_| self.random.below(count)).collect() }
    }

    /// A table whose text has about as many bytes as a table file may have, or more.
    fn long_table(&mut self) -> (State, usize, usize) {
        let (n, used) = (MAX_PROPERTIES - self.random.below(4), MAX_ROWS - self.random.below(10));
        let all = sets::all(n);
        let mut state = self.state(&[]);
        for _ in 0..used {
            let yes = self.random.subset(all);
            state.rows.extend([yes, self.random.subset(all & !yes)]);
        }
        let bytes = MAX_BYTES + [0, 1, 2, 100, 5000][self.random.below(5)] - self.random.below(2);
        // The head is 11 bytes long, and every line has its end.
        let letters = bytes - 11 - (n + 1) * used - (n + used);
        let (each, more) = (letters / (n + used), letters % (n + used));
        let lines: Vec<_> = (0..n + used).map(|i| self.text(each + usize::from(i < more))).collect();
        state.names = self.join(&lines);
        (state, n, used)
    }

    /// Counts that are wrong by one, out of range, or so large that twice as many have no number.
    fn damage_counts(&mut self, n: &mut usize, used: &mut usize) {
        let count = if self.chance(2) { n } else { used };
        *count = match self.random.below(8) {
            0 => 0,
            1 => count.wrapping_add(1),
            2 => count.wrapping_sub(1),
            3 => MAX_PROPERTIES + self.random.below(2),
            4 => count.wrapping_add(1 << 63),
            5 => usize::MAX - self.random.below(3),
            6 => self.random.word() as usize,
            _ => self.random.below(*count % MAX_ROWS + 1),
        };
    }

    /// Row words of another length, or with other bits.
    fn damage_rows(&mut self, rows: &mut Vec<u64>, n: usize, used: usize) {
        let places = rows.len().min(2 * used.min(MAX_ROWS)) / 2;
        let fewer = self.random.below(rows.len() + 1);
        let lengths = [rows.len() + 1, fewer, MAX_ROW_WORDS, MAX_ROW_WORDS + 1, MAX_ROW_WORDS + 2];
        match self.random.below(6) {
            0 => rows.resize(lengths[self.random.below(5)], 0),
            1 | 2 if places > 0 => {
                let at = self.random.below(2 * places);
                rows[at] |= 1 << self.random.below(64);
            }
            // Marked both ways in some rows.
            3 if places > 0 => {
                for _ in 0..1 + self.random.below(3) {
                    let at = 2 * self.random.below(places);
                    let both = self.random.member(sets::all(n));
                    rows[at] |= both;
                    rows[at + 1] |= both;
                }
            }
            // Other marks, more of them unknown.
            _ => rows.iter_mut().for_each(|word| *word &= self.random.word()),
        }
    }

    /// Names with other line ends, lines that are no names, more lines behind, or other bytes.
    fn damage_names(&mut self, names: &mut Vec<u8>, n: usize, used: usize) {
        let mut lines: Vec<_> = match table::lent_names(names, n.saturating_add(used)) {
            Ok(lines) if !lines.is_empty() => lines.into_iter().map(<[u8]>::to_vec).collect(),
            _ => return self.damage(names),
        };
        let at = self.random.below(lines.len());
        let long = MAX_NAME + self.random.below(3);
        match self.random.below(7) {
            0 => return self.damage(names),
            1 => lines[at].clear(),
            2 => lines[at] = self.text(long),
            3 => lines.truncate(at),
            4 => lines[at].iter_mut().for_each(|byte| *byte |= 0x80),
            5 => lines.extend([vec![], self.text(long), b"X.?".to_vec()]),
            _ => {}
        }
        *names = self.join(&lines);
    }

    /// Output with more room than the text needs, with just enough, with too little, or with none.
    fn output(&mut self, state: &State, n: usize, used: usize) -> Vec<u8> {
        let needed = match opened::write_table(n, used, &state.rows, &state.names, &mut vec![0; MAX_BYTES]) {
            Answer { code: ACCEPTED, first, .. } => first as usize,
            Answer { code: 30, .. } => MAX_BYTES,
            _ => 100,
        };
        let length = match self.random.below(12) {
            0 => 0,
            1 => needed - 1,
            2 => self.random.below(needed),
            3 => MAX_BYTES + [0, 1, 9000][self.random.below(3)],
            4..8 => needed,
            _ => needed + self.random.below(50),
        };
        self.random.words(length / 8 + 1).into_iter().flat_map(u64::to_le_bytes).take(length).collect()
    }

    fn right_layout(&mut self, file: &[u8]) -> Option<Layout> {
        let mut layout = self.any_layout();
        (opened::open_table(&mut layout, file) == Answer::accepted()).then_some(layout)
    }

    /// The right layout mostly, else one that is nearly right or another file's.
    fn likely_layout(&mut self, right: Option<Layout>, other: Option<Layout>) -> Layout {
        match (self.random.below(4), right) {
            (0, _) => other.unwrap_or_else(|| self.any_layout()),
            (1, Some(layout)) => self.wrong_layout(layout),
            (_, Some(layout)) => layout,
            (_, None) => self.any_layout(),
        }
    }

    fn any_layout(&mut self) -> Layout {
        let mut number = || if self.chance(4) { self.random.word() as usize } else { self.random.below(64) };
        Layout {
            objects: number(),
            attributes: number(),
            object_names: number(),
            attribute_names: number(),
            marks: number(),
        }
    }

    /// A layout with one number changed.
    fn wrong_layout(&mut self, mut layout: Layout) -> Layout {
        let number = match self.random.below(5) {
            0 => &mut layout.objects,
            1 => &mut layout.attributes,
            2 => &mut layout.object_names,
            3 => &mut layout.attribute_names,
            _ => &mut layout.marks,
        };
        *number = match self.random.below(4) {
            0 => number.wrapping_add(1),
            1 => number.wrapping_sub(1),
            2 => usize::MAX,
            _ => 0,
        };
        layout
    }

    /// A name's number, mostly one of the `count`.
    fn any_number(&mut self, count: usize) -> usize {
        match self.random.below(6) {
            0 => count,
            1 => count.wrapping_sub(1),
            2 => self.random.word() as usize,
            3 => 0,
            _ => self.random.below(count.clamp(1, MAX_ROWS)),
        }
    }

    fn text(&mut self, length: usize) -> Vec<u8> {
        let byte = |random: &mut Random| match random.below(8) {
            0 => random.word() as u8,
            _ => b'a' + random.below(26) as u8,
        };
        (0..length).map(|_| byte(&mut self.random)).map(|b| if b"\r\n".contains(&b) { b' ' } else { b }).collect()
    }

    fn name(&mut self) -> Vec<u8> {
        let length = if self.chance(30) { MAX_NAME } else { 1 + self.random.below(9) };
        self.text(length)
    }

    /// A table, some with one faulty line, and maybe empty lines behind it.
    fn file(&mut self) -> Vec<u8> {
        let rows = match self.random.below(80) {
            0 => MAX_ROWS,
            1 => self.random.below(MAX_ROWS),
            _ => self.random.below(7),
        };
        let n = match self.random.below(20) {
            0 => MAX_PROPERTIES,
            1 => 1 + self.random.below(MAX_PROPERTIES),
            _ => 1 + self.random.below(6),
        };
        let marks: &[u8] = if self.chance(2) { b"Xx." } else { b"Xx...X??" };
        let title = self.random.below(MAX_NAME + 1);
        let mut lines = vec![b"B".to_vec(), self.text(title)];
        lines.extend([self.count_line(rows), self.count_line(n), vec![]]);
        lines.extend((0..rows + n).map(|_| self.name()));
        for _ in 0..rows {
            lines.push((0..n).map(|_| marks[self.random.below(marks.len())]).collect());
        }
        if self.chance(3) {
            self.damage_line(&mut lines, rows, n);
        }
        lines.extend((0..self.random.below(3)).map(|_| vec![]));
        self.join(&lines)
    }

    fn count_line(&mut self, count: usize) -> Vec<u8> {
        let width = 1 + self.random.below(4);
        format!("{count:0width$}").into_bytes()
    }

    /// Joins lines by line feeds, carriage returns, both, or mixed, the last with or without its end or half of it.
    fn join(&mut self, lines: &[Vec<u8>]) -> Vec<u8> {
        const ENDS: [&[u8]; 3] = [b"\n", b"\r\n", b"\r"];
        let kind = self.random.below(4);
        let mut file = vec![];
        for line in lines {
            file.extend(line);
            // Right behind a carriage return a line feed would belong to the same end.
            let first = usize::from(file.last() == Some(&b'\r'));
            file.extend(ENDS[if kind < 3 { kind } else { first + self.random.below(3 - first) }]);
        }
        if self.chance(3) {
            file.pop();
        }
        file
    }

    /// Breaks, or nearly breaks, one of the rules for a line.
    fn damage_line(&mut self, lines: &mut Vec<Vec<u8>>, rows: usize, n: usize) {
        const COUNTS: [&str; 12] = ["", "0", "0000", "00000", "1", "9999", "10000", "-1", "+1", " 1", "1x", "x"];
        let count = COUNTS[self.random.below(COUNTS.len())].as_bytes().to_vec();
        let above = self.random.below(2);
        let names = 5..5 + rows + n;
        let marks = 5 + rows + n..5 + rows + n + rows;
        match self.random.below(13) {
            0 => lines[0] = [&b""[..], b"b", b"BB", b" B", b"B ", b"\rB"][self.random.below(6)].to_vec(),
            1 => lines[1] = self.text(MAX_NAME + 1),
            2 => lines[2] = count,
            3 => lines[2] = self.count_line(MAX_ROWS + above),
            4 => lines[3] = count,
            5 => lines[3] = self.count_line(MAX_PROPERTIES + above),
            6 => lines[4] = self.text(1),
            7 => lines[names.start + self.random.below(names.len())].clear(),
            8 => lines[names.start + self.random.below(names.len())] = self.text(MAX_NAME + 1),
            9 if rows > 0 => {
                let line = &mut lines[marks.start + self.random.below(rows)];
                line[self.random.below(n)] = b"XxYW,:!-/ \r\0\xd8"[self.random.below(13)];
            }
            10 | 11 if rows > 0 => {
                let line = &mut lines[marks.start + self.random.below(rows)];
                if self.random.below(2) == 0 {
                    line.pop();
                } else {
                    line.push(b'X');
                }
            }
            _ => lines.push(self.text(1)),
        }
    }

    /// Changes the bytes of a file.
    fn damage(&mut self, file: &mut Vec<u8>) {
        let at = self.random.below(file.len() + 1);
        let near = self.random.below(file.len().min(24) + 1);
        match self.random.below(10) {
            0 | 1 => file.truncate(at),
            2 => file.truncate(near),
            3 => file.insert(at, b"\n\rX.?B0"[self.random.below(7)]),
            4 => file.insert(near, b"\n\rX.?B0"[self.random.below(7)]),
            5 if at < file.len() => file[at] = self.random.word() as u8,
            6 if near < file.len() => {
                file.remove(near);
            }
            // The longest file, or one too long, by empty lines or by others behind them.
            7 | 8 => {
                file.resize(MAX_BYTES + [0, 0, 1, 1, 2, 9000][self.random.below(6)], b'\n');
                if self.chance(3) {
                    *file.last_mut().expect("a long file") = b'X';
                }
            }
            _ => file.extend(b"\r\n\n"),
        }
    }
}
