//! 01, "Refusal numbers and places": each number once, by what it says.

pub const BAD_BYTE: u8 = 1;
pub const OUT_OF_PLACE: u8 = 2;
pub const BAD_NAME: u8 = 3;
pub const ILL_FORMED: u8 = 4;
pub const OVER_LIMIT: u8 = 5;
pub const BAD_CALL: u8 = 6;
pub const TOO_LONG: u8 = 7;
pub const BAD_VALUE: u8 = 8;
pub const COUNTER_SPENT: u8 = 9;
pub const LEVEL_SIX: u8 = 10;
pub const CALLS_SPENT: u8 = 11;
pub const SHORT_WORKSPACE: u8 = 13;
pub const NO_ROOM: u8 = 14;
pub const LANGUAGE_WORD: u8 = 15;

/// A refused translation: "Translation answers 1 to 5 for the lowest faulty line, lowest number on it".
#[derive(Clone, Copy, PartialEq, Eq, Debug)]
pub struct Fault {
    pub number: u8,
    pub line: usize,
}

/// A refused expansion. "Place: open line and body line of the innermost running macro, 0 in open code".
#[derive(Clone, Copy, PartialEq, Eq, Debug)]
pub struct Refusal {
    pub number: u8,
    pub open_line: usize,
    pub body_line: usize,
    pub steps: u64,
}

/// An expansion that succeeded.
#[derive(Clone, Copy, PartialEq, Eq, Debug)]
pub struct Expanded {
    pub lines: usize,
    pub steps: u64,
    pub bytes: usize,
}
