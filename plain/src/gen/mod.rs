//! A deterministic generator of cases in the batch format: libraries and programs that use, bend and break the rules of document 01.
//!
//! Each profile is a module that makes one case from a stream of random numbers. The stream depends on the seed, the profile and the case's index alone, so a case can be made again without those before it.

use crate::batch::{write_case, Case};

mod buffers;
mod bytes;
mod calls;
mod faults;
mod limits;
mod rich;
mod runtime;
mod tokens;

/// The names of the profiles.
pub const PROFILES: [&str; 8] = ["rich", "calls", "faults", "limits", "runtime", "buffers", "bytes", "tokens"];

/// Writes `count` cases of a profile in the batch format; the same seed gives the same bytes. None if there is no such profile.
pub fn generate(seed: u64, count: usize, profile: &str) -> Option<Vec<u8>> {
    let mut batch = Vec::new();
    for case in cases(seed, count, profile)? {
        write_case(&case, &mut batch).ok()?;
    }
    Some(batch)
}

/// The cases that `generate` writes.
pub fn cases(seed: u64, count: usize, profile: &str) -> Option<Vec<Case>> {
    let make: fn(&mut Random) -> Case = match profile {
        "rich" => rich::case,
        "calls" => calls::case,
        "faults" => faults::case,
        "limits" => limits::case,
        "runtime" => runtime::case,
        "buffers" => buffers::case,
        "bytes" => bytes::case,
        "tokens" => tokens::case,
        _ => return None,
    };
    let one = |index| Case { id: format!("{profile}-{seed}-{index:06}"), ..make(&mut Random::new(seed, profile, index)) };
    Some((0..count).map(one).collect())
}

const OUTPUT: usize = 262_144;
const WORKSPACE: usize = 32_768;
const LINE_LIMIT: usize = 71;
const STRING_LIMIT: usize = 255;
const NEST_LIMIT: usize = 8;
const LARGEST: i64 = 2_147_483_647;
const SMALLEST: i64 = -2_147_483_648;

const WORDS: &[&str] = &[
    "MACRO", "MEND", "MEXIT", "LCLA", "LCLB", "LCLC", "GBLA", "GBLB", "GBLC", "SETA", "SETB", "SETC", "AIF", "AGO", "ANOP", "ACTR",
];
const SECTIONS: &[&str] = &["CSECT", "DSECT", "START"];
const PLAIN_OPERATIONS: &[&str] = &["DC", "NOP", "LA", "BAL", "MNOTE", "COPY", "L", "ST", "A*B", "EQU", "X", "(X)", "MUL", "="];
const RELATIONS: &[&str] = &["EQ", "NE", "LT", "LE", "GT", "GE"];
const SYMBOL_NAMES: &[&str] = &[
    "A", "B", "C", "D", "I", "J", "K", "L", "M", "N", "P", "Q", "R", "T", "X", "Y", "Z", "A1", "K1", "L4", "N2", "Z9", "W2", "REG",
    "TXT", "SUM", "COUNT", "PTR", "FLAG", "HI", "AND", "NOT", "OR", "EQ", "MEND", "ACTR", "SY", "SYZ", "S", "_", "@", "#", "$X",
    "$$$$$$$", "Q#@_$12", "ABCDEFG", "_1", "T3",
];
const SEQUENCE_NAMES: &[&str] = &[
    "A", "B", "X", "Y", "K", "N", "L1", "L2", "X1", "Q9", "GO", "END", "OUT", "SKIP", "LOOP", "LONGSEQ", "MEND", "AIF", "$", "_",
    "@A", "#END", "T", "S",
];
const MACRO_NAMES: &[&str] = &[
    "ADDUP", "SAVE", "M1", "M2", "STEP", "M12345_8", "_1", "ENTER", "REV", "HEX8", "T", "U", "GEN", "CALL", "UNROLL", "AND",
    "@TAB", "#", "TAB", "POP", "LOADM", "SHOW", "NOT", "SETX", "$12", "MACRO1",
];
const REMARKS: &[&str] =
    &["REMARK", "*", ".*", "&&&", "IT'S A &REMARK", "' OPEN QUOTE", "&UNKNOWN AND ( &", "K'&X", "A,B=C", "&Z", "(", "&SYSNOT 'X"];
/// Every byte that a line may hold, the space first.
const BYTE_SET: &[u8] = b" ABCDEFGHIJKLMNOPQRSTUVWXYZ0123456789$#@_+-*=,.()/'&";

// ---------------------------------------------------------------- random numbers

/// A splitmix64 stream.
struct Random {
    state: u64,
}

fn mix(value: u64) -> u64 {
    let a = (value ^ (value >> 30)).wrapping_mul(0xbf58_476d_1ce4_e5b9);
    let b = (a ^ (a >> 27)).wrapping_mul(0x94d0_49bb_1331_11eb);
    b ^ (b >> 31)
}

impl Random {
    fn new(seed: u64, profile: &str, index: usize) -> Random {
        let named = profile.bytes().fold(mix(seed.wrapping_add(1)), |state, byte| mix(state ^ u64::from(byte)).wrapping_add(1));
        Random { state: mix(named ^ mix(index as u64 ^ 0x5851_f42d_4c95_7f2d)) }
    }

    fn next(&mut self) -> u64 {
        self.state = self.state.wrapping_add(0x9e37_79b9_7f4a_7c15);
        mix(self.state)
    }

    /// A number below `end`; 0 if there is none.
    fn below(&mut self, end: usize) -> usize {
        self.next().checked_rem(end as u64).unwrap_or(0) as usize
    }

    fn between(&mut self, low: usize, high: usize) -> usize {
        low + self.below(high.saturating_sub(low) + 1)
    }

    fn chance(&mut self, percent: usize) -> bool {
        self.below(100) < percent
    }

    /// One of the words; empty if there are none.
    fn pick<'a>(&mut self, words: &[&'a str]) -> &'a str {
        words.get(self.below(words.len())).copied().unwrap_or("")
    }

    fn choose<'a, T>(&mut self, items: &'a [T]) -> Option<&'a T> {
        items.get(self.below(items.len()))
    }

    fn shuffle<T>(&mut self, items: &mut [T]) {
        for end in (1..items.len()).rev() {
            items.swap(end, self.below(end + 1));
        }
    }

    /// The words in a random order.
    fn shuffled(&mut self, words: &[&str]) -> Vec<String> {
        let mut all: Vec<String> = words.iter().map(|word| word.to_string()).collect();
        self.shuffle(&mut all);
        all
    }
}

// ---------------------------------------------------------------- lines

/// The fields in columns 1, 10 and 16, at least one space between, no trailing spaces.
fn fixed(name: &str, operation: &str, operand: &str) -> String {
    let mut line = format!("{name:<8} {operation}");
    if !operand.is_empty() {
        line = format!("{line:<14} {operand}");
    }
    line.trim_end().to_string()
}

/// The fields in their columns or loosely spaced, within 71 columns where the fields allow it.
fn spaced(rng: &mut Random, name: &str, operation: &str, operand: &str) -> String {
    let line = fixed(name, operation, operand);
    if line.len() <= LINE_LIMIT && !rng.chance(12) {
        return line;
    }
    let tight = [name, operation, operand].join(" ").trim_end().to_string();
    let left = " ".repeat(1 + rng.below(3));
    let right = " ".repeat(1 + rng.below(4));
    let loose = format!("{name}{left}{operation}{right}{operand}").trim_end().to_string();
    if loose.len() <= LINE_LIMIT {
        loose
    } else {
        tight
    }
}

/// A remark behind a line, sometimes, as far as it fits.
fn remarked(rng: &mut Random, line: String) -> String {
    if !rng.chance(20) {
        return line;
    }
    let gap = rng.pick(&[" ", "  ", "     "]);
    let with =
        if rng.chance(15) { format!("{line}{}", " ".repeat(rng.below(20))) } else { format!("{line}{gap}{}", rng.pick(REMARKS)) };
    if with.len() <= LINE_LIMIT {
        with
    } else {
        line
    }
}

/// The lines as a file, now and then without its last newline.
fn file(rng: &mut Random, lines: &[String]) -> Vec<u8> {
    let mut bytes = lines.join("\n").into_bytes();
    if !lines.is_empty() && !rng.chance(3) {
        bytes.push(b'\n');
    }
    bytes
}

fn lines_of(text: &[&str]) -> Vec<String> {
    text.iter().map(|line| line.to_string()).collect()
}

/// The lines of a text that begins and ends with a newline.
fn lines_in(text: &str) -> Vec<String> {
    text.lines().skip(1).map(str::to_string).collect()
}

fn case_of(library: Vec<u8>, program: Vec<u8>) -> Case {
    Case { id: String::new(), library, program, output: OUTPUT, workspace: WORKSPACE }
}

/// Puts each `{}` of the text to one of the words.
fn filled(rng: &mut Random, text: &str, words: &[&str]) -> String {
    let mut parts = text.split("{}");
    let mut result = parts.next().unwrap_or("").to_string();
    for part in parts {
        result.push_str(rng.pick(words));
        result.push_str(part);
    }
    result
}
