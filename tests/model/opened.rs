//! Opened tables: the calls that read a table file and look into it (document 01, "The table file"), and the one that
//! writes a table file (request 2/13).

use crate::machine::{self, ACCEPTED, Answer, MAX_ROW_WORDS};
use crate::table::{self, Refusal, Table};

/// The counts and offsets of an opened table.
#[repr(C)]
#[derive(Clone, Copy, Debug, PartialEq, Eq)]
pub struct Layout {
    pub objects: usize,
    pub attributes: usize,
    pub object_names: usize,
    pub attribute_names: usize,
    pub marks: usize,
}

impl From<Refusal> for Answer {
    fn from(refusal: Refusal) -> Answer {
        Answer::refusal(refusal.number, refusal.place)
    }
}

fn layout_of(table: &Table) -> Layout {
    let [object_names, attribute_names, marks] = table.offsets;
    Layout { objects: table.row_names.len(), attributes: table.properties, object_names, attribute_names, marks }
}

fn open(layout: &mut Layout, file: &[u8], complete: bool) -> Answer {
    let table = match table::read(file) {
        Ok(table) => table,
        Err(refusal) => return refusal.into(),
    };
    if let Some(refusal) = table.unknown().filter(|_| complete) {
        return refusal.into();
    }
    *layout = layout_of(&table);
    Answer::accepted()
}

pub fn open_table(layout: &mut Layout, file: &[u8]) -> Answer {
    open(layout, file, false)
}

pub fn open_complete(layout: &mut Layout, file: &[u8]) -> Answer {
    open(layout, file, true)
}

pub fn read_marks(layout: &Layout, file: &[u8], rows: &mut [u64]) -> Answer {
    if rows.len() % 2 == 1 || rows.len() > MAX_ROW_WORDS {
        return Answer::refusal(2, 0);
    }
    let table = match table::read(file) {
        Ok(table) => table,
        Err(refusal) => return refusal.into(),
    };
    let marks = table.rows();
    if layout_of(&table) != *layout || marks.len() > rows.len() / 2 {
        return Answer::refusal(3, 0);
    }
    for (place, row) in rows.chunks_exact_mut(2).zip(marks) {
        (place[0], place[1]) = row;
    }
    Answer::accepted()
}

fn name(layout: &Layout, file: &[u8], number: usize, names: impl Fn(Table<'_>) -> Vec<&[u8]>) -> Answer {
    let found = table::read(file).ok().filter(|table| layout_of(table) == *layout);
    match found.and_then(|table| names(table).get(number).copied()) {
        Some(name) => {
            let offset = name.as_ptr() as usize - file.as_ptr() as usize;
            Answer::new(ACCEPTED, offset as u64, name.len() as u64)
        }
        None => Answer::refusal(3, 0),
    }
}

pub fn object_name(layout: &Layout, file: &[u8], number: usize) -> Answer {
    name(layout, file, number, |table| table.row_names)
}

pub fn attribute_name(layout: &Layout, file: &[u8], number: usize) -> Answer {
    name(layout, file, number, |table| table.property_names)
}

/// Writes the first `used` rows and the names as a table file at the start of the output.
pub fn write_table(n: usize, used: usize, rows: &[u64], names: &[u8], out: &mut [u8]) -> Answer {
    let rows = match machine::rows_in_use(n, used, rows, &[]) {
        Ok(rows) => rows,
        Err(refusal) => return refusal,
    };
    match table::write(n, &rows, names, out.len()) {
        Ok(text) => {
            out[..text.len()].copy_from_slice(&text);
            Answer::new(ACCEPTED, text.len() as u64, 0)
        }
        Err(refusal) => refusal.into(),
    }
}
