//! The table file, read as document 01 says ("The table file", refusals 21 to 29), with the line ends of request 1/13,
//! and written as request 2/13 says.

pub const MAX_BYTES: usize = 65_535;
pub const MAX_ROWS: usize = 512;
pub const MAX_PROPERTIES: usize = 64;
pub const MAX_NAME: usize = 80;

#[derive(Clone, Copy, Debug, PartialEq, Eq)]
pub struct Refusal {
    pub number: u64,
    pub place: usize,
}

#[derive(Debug)]
pub struct Table<'a> {
    pub properties: usize,
    pub row_names: Vec<&'a [u8]>,
    pub property_names: Vec<&'a [u8]>,
    /// Each line of marks with its offset.
    pub marks: Vec<(usize, &'a [u8])>,
    /// Where the names of the rows, of the properties and the marks begin.
    pub offsets: [usize; 3],
}

/// Splits a file into lines; remembers where the line begins that it gave last.
struct Lines<'a> {
    file: &'a [u8],
    at: usize,
    began: usize,
}

impl<'a> Lines<'a> {
    fn next(&mut self) -> Option<&'a [u8]> {
        self.began = self.at;
        if self.at >= self.file.len() {
            return None;
        }
        let rest = &self.file[self.at..];
        let size = rest.iter().position(|b| b"\r\n".contains(b)).unwrap_or(rest.len());
        let end = match &rest[size..] {
            [] => 0,
            [b'\r', b'\n', ..] => 2,
            _ => 1,
        };
        self.at += size + end;
        Some(&rest[..size])
    }

    fn refuse<T>(&self, number: u64) -> Result<T, Refusal> {
        Err(Refusal { number, place: self.began })
    }

    fn count(&mut self, fits: impl Fn(usize) -> bool) -> Result<usize, Refusal> {
        let Some(line) = self.next() else { return self.refuse(23) };
        if line.is_empty() || line.len() > 4 || !line.iter().all(u8::is_ascii_digit) {
            return self.refuse(23);
        }
        let value = line.iter().fold(0, |v, &b| v * 10 + usize::from(b - b'0'));
        if fits(value) { Ok(value) } else { self.refuse(24) }
    }

    fn names(&mut self, count: usize) -> Result<Vec<&'a [u8]>, Refusal> {
        (0..count)
            .map(|_| match self.next() {
                Some(name) if (1..=MAX_NAME).contains(&name.len()) => Ok(name),
                _ => self.refuse(26),
            })
            .collect()
    }
}

pub fn read(file: &[u8]) -> Result<Table<'_>, Refusal> {
    if file.len() > MAX_BYTES {
        return Err(Refusal { number: 21, place: MAX_BYTES });
    }
    let mut lines = Lines { file, at: 0, began: 0 };
    if lines.next() != Some(b"B".as_slice()) {
        return lines.refuse(22);
    }
    if !matches!(lines.next(), Some(title) if title.len() <= 80) {
        return lines.refuse(25);
    }
    let rows = lines.count(|v| v <= MAX_ROWS)?;
    let properties = lines.count(|v| (1..=MAX_PROPERTIES).contains(&v))?;
    if lines.next() != Some(b"".as_slice()) {
        return lines.refuse(25);
    }
    let at_rows = lines.at;
    let row_names = lines.names(rows)?;
    let at_properties = lines.at;
    let property_names = lines.names(properties)?;
    let at_marks = lines.at;
    let mut marks = Vec::with_capacity(rows);
    for _ in 0..rows {
        match lines.next() {
            Some(line) if line.len() == properties && line.iter().all(|b| b"Xx.?".contains(b)) => {
                marks.push((lines.began, line));
            }
            _ => return lines.refuse(27),
        }
    }
    while let Some(line) = lines.next() {
        if !line.is_empty() {
            return lines.refuse(28);
        }
    }
    Ok(Table { properties, row_names, property_names, marks, offsets: [at_rows, at_properties, at_marks] })
}

/// The first names of those that are lent as lines, `count` of them.
pub fn lent_names(names: &[u8], count: usize) -> Result<Vec<&[u8]>, Refusal> {
    Lines { file: names, at: 0, began: 0 }.names(count)
}

/// The table file of rows over n properties, their words and the names of both in this order; it may have `room` bytes.
pub fn write(n: usize, rows: &[(u64, u64)], names: &[u8], room: usize) -> Result<Vec<u8>, Refusal> {
    let names = lent_names(names, rows.len() + n)?;
    let counts = [rows.len().to_string(), n.to_string()];
    let head = [b"B".as_slice(), b"", counts[0].as_bytes(), counts[1].as_bytes(), b""];
    let mark = |(yes, no): (u64, u64), i: usize| match (yes >> i & 1, no >> i & 1) {
        (1, _) => b'X',
        (_, 1) => b'.',
        _ => b'?',
    };
    let mut text = vec![];
    for line in head.into_iter().chain(names) {
        text.extend(line);
        text.push(b'\n');
    }
    for &row in rows {
        text.extend((0..n).map(|i| mark(row, i)));
        text.push(b'\n');
    }
    if text.len() > room.min(MAX_BYTES) {
        return Err(Refusal { number: 30, place: 0 });
    }
    Ok(text)
}

/// The words of a line of marks: yes, then no.
pub fn words(line: &[u8]) -> (u64, u64) {
    let pick = |wanted: &[u8]| {
        line.iter().enumerate().filter(|(_, b)| wanted.contains(b)).fold(0u64, |word, (i, _)| word | 1 << i)
    };
    (pick(b"Xx"), pick(b"."))
}

impl Table<'_> {
    pub fn rows(&self) -> Vec<(u64, u64)> {
        self.marks.iter().map(|&(_, line)| words(line)).collect()
    }

    /// 29: the first line with an unknown mark.
    pub fn unknown(&self) -> Option<Refusal> {
        let line = self.marks.iter().find(|(_, line)| line.contains(&b'?'))?;
        Some(Refusal { number: 29, place: line.0 })
    }
}
