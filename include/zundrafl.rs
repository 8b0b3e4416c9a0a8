//! The functions of include/zundrafl.h for Rust: the same names, parameters and numbers, which `tests/declarations.py` compares. What
//! each does, and what it asks of pointers, is said there.
#![allow(dead_code)]

pub const VERSION_MAJOR: u32 = 3;
pub const VERSION_MINOR: u32 = 0;

pub const MOST_ATTRIBUTES: usize = 64;
pub const MOST_ROWS: usize = 512;
pub const MOST_RULES: usize = 256;
pub const MOST_BYTES: usize = 65535;

pub const BAD_N: u64 = 1;
pub const BAD_LENGTH: u64 = 2;
pub const NO_SUCH_PLACE: u64 = 3;
pub const OUTSIDE: u64 = 4;
pub const MARKED_TWICE: u64 = 5;
pub const ROW_CONTRADICTS: u64 = 6;
pub const NOT_CLOSED: u64 = 7;
pub const NO_QUESTION: u64 = 8;
pub const BAD_ROW: u64 = 9;
pub const NOT_REFUTING: u64 = 10;
pub const REPLY_CONTRADICTS: u64 = 11;
pub const FULL: u64 = 12;
pub const FILE_TOO_LONG: u64 = 21;
pub const NO_B: u64 = 22;
pub const BAD_COUNT: u64 = 23;
pub const COUNT_OUT_OF_RANGE: u64 = 24;
pub const BAD_TITLE: u64 = 25;
pub const BAD_NAME: u64 = 26;
pub const BAD_MARKS: u64 = 27;
pub const NOT_AT_END: u64 = 28;
pub const MARK_UNKNOWN: u64 = 29;
pub const TEXT_TOO_LONG: u64 = 30;
pub const BAD_PERCENTAGE: u64 = 31;
pub const NO_SUCH_ROW: u64 = 32;
pub const MARK_REVERSED: u64 = 33;

pub const FINISHED: u64 = 100;
pub const MOVED: u64 = 101;
pub const ASKED: u64 = 102;
pub const TAKEN: u64 = 103;
pub const FOLLOWS: u64 = 104;
pub const REFUTED: u64 = 105;
pub const UNREFUTED: u64 = 106;
pub const UNKNOWN: u64 = 107;
pub const REFUTES: u64 = 108;

pub const STEP: u64 = 0;
pub const YES: u64 = 1;
pub const NO: u64 = 2;
pub const ASK_FOLLOWS: u64 = 3;
pub const ASK_REFUTED: u64 = 4;
pub const TEST: u64 = 5;
pub const FILE: u64 = 6;
pub const FILL: u64 = 7;

#[repr(C)]
#[derive(Clone, Copy, Debug, Default, PartialEq, Eq)]
pub struct Session {
    pub n: usize,
    pub rows: usize,
    pub rules: usize,
    pub current: u64,
}

#[repr(C)]
#[derive(Clone, Copy, Debug, Default, PartialEq, Eq)]
pub struct Answer {
    pub code: u64,
    pub first: u64,
    pub second: u64,
}

#[repr(C)]
#[derive(Clone, Copy, Debug, Default, PartialEq, Eq)]
pub struct Layout {
    pub objects: usize,
    pub attributes: usize,
    pub object_names: usize,
    pub attribute_names: usize,
    pub marks: usize,
}

impl Answer {
    pub fn is_refusal(&self) -> bool {
        self.code < 100
    }
}

#[link(name = "zundrafl", kind = "static")]
unsafe extern "C" {
    pub fn zundrafl_sentence(number: u64, out: *mut u8, bytes: usize) -> usize;
    pub fn zundrafl_open_session(
        session: *mut Session,
        n: usize,
        used: usize,
        rows: *const u64,
        row_words: usize,
        list: *const u64,
        list_words: usize,
        background: *const u64,
        background_words: usize,
        answer: *mut Answer,
    );
    pub fn zundrafl_step(
        session: *mut Session,
        rows: *const u64,
        row_words: usize,
        list: *const u64,
        list_words: usize,
        background: *const u64,
        background_words: usize,
        answer: *mut Answer,
    );
    pub fn zundrafl_accept(
        session: *mut Session,
        rows: *const u64,
        row_words: usize,
        list: *mut u64,
        list_words: usize,
        background: *const u64,
        background_words: usize,
        answer: *mut Answer,
    );
    pub fn zundrafl_reject(
        session: *mut Session,
        rows: *mut u64,
        row_words: usize,
        list: *const u64,
        list_words: usize,
        background: *const u64,
        background_words: usize,
        yes: u64,
        no: u64,
        answer: *mut Answer,
    );
    pub fn zundrafl_test_row(
        session: *const Session,
        rows: *const u64,
        row_words: usize,
        list: *const u64,
        list_words: usize,
        background: *const u64,
        background_words: usize,
        yes: u64,
        no: u64,
        answer: *mut Answer,
    );
    pub fn zundrafl_file_row(
        session: *mut Session,
        rows: *mut u64,
        row_words: usize,
        list: *const u64,
        list_words: usize,
        background: *const u64,
        background_words: usize,
        yes: u64,
        no: u64,
        answer: *mut Answer,
    );
    pub fn zundrafl_fill_row(
        session: *mut Session,
        rows: *mut u64,
        row_words: usize,
        list: *const u64,
        list_words: usize,
        background: *const u64,
        background_words: usize,
        row: usize,
        yes: u64,
        no: u64,
        answer: *mut Answer,
    );
    pub fn zundrafl_follows(
        session: *const Session,
        rows: *const u64,
        row_words: usize,
        list: *const u64,
        list_words: usize,
        background: *const u64,
        background_words: usize,
        premise: u64,
        conclusion: u64,
        answer: *mut Answer,
    );
    pub fn zundrafl_refuted(
        session: *const Session,
        rows: *const u64,
        row_words: usize,
        list: *const u64,
        list_words: usize,
        background: *const u64,
        background_words: usize,
        premise: u64,
        conclusion: u64,
        answer: *mut Answer,
    );
    pub fn zundrafl_replay(
        session: *mut Session,
        rows: *mut u64,
        row_words: usize,
        list: *mut u64,
        list_words: usize,
        background: *const u64,
        background_words: usize,
        calls: *const u64,
        call_words: usize,
        answers: *mut u64,
        answer_words: usize,
        answer: *mut Answer,
    );
    pub fn zundrafl_open_and_replay(
        session: *mut Session,
        n: usize,
        used: usize,
        rows: *mut u64,
        row_words: usize,
        list: *mut u64,
        list_words: usize,
        background: *const u64,
        background_words: usize,
        calls: *const u64,
        call_words: usize,
        answers: *mut u64,
        answer_words: usize,
        answer: *mut Answer,
    );
    pub fn zundrafl_open_table(layout: *mut Layout, file: *const u8, bytes: usize, answer: *mut Answer);
    pub fn zundrafl_open_complete_table(layout: *mut Layout, file: *const u8, bytes: usize, answer: *mut Answer);
    pub fn zundrafl_read_marks(
        layout: *const Layout,
        file: *const u8,
        bytes: usize,
        rows: *mut u64,
        row_words: usize,
        answer: *mut Answer,
    );
    pub fn zundrafl_object_name(layout: *const Layout, file: *const u8, bytes: usize, number: usize, answer: *mut Answer);
    pub fn zundrafl_attribute_name(layout: *const Layout, file: *const u8, bytes: usize, number: usize, answer: *mut Answer);
    pub fn zundrafl_write_table(
        n: usize,
        used: usize,
        rows: *const u64,
        row_words: usize,
        names: *const u8,
        name_bytes: usize,
        out: *mut u8,
        bytes: usize,
        answer: *mut Answer,
    );
    pub fn zundrafl_nearly(
        n: usize,
        used: usize,
        rows: *const u64,
        row_words: usize,
        premise: u64,
        percent: u64,
        answer: *mut Answer,
    );
}
