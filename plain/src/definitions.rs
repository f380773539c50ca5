//! 01, "Definitions": macros, prototypes, declarations, the sixteen words, the limits.

use crate::lines::{exactly_one_symbol, fields, lines, sequence_symbol, symbol_at_start, Field};

/// "Limits: 512 lines, 32 MACRO lines, 16 parameters a macro (name parameter included), 16 locals a macro, 16 globals a library,
/// parentheses and subscripts nested 8 deep"
pub const LINES: usize = 512;
pub const MACROS: usize = 32;
pub const PARAMETERS: usize = 16;
pub const LOCALS: usize = 16;
pub const GLOBALS: usize = 16;
pub const NESTING: usize = 8;
/// "macro name (a letter, up to 7 more letters or digits)"
pub const MACRO_NAME: usize = 8;

/// "The sixteen language words are .."
pub const WORDS: [&str; 16] = [
    "MACRO", "MEND", "MEXIT", "LCLA", "LCLB", "LCLC", "GBLA", "GBLB", "GBLC", "SETA", "SETB", "SETC", "AIF", "AGO", "ANOP",
    "ACTR",
];

pub fn is_word(operation: &[u8]) -> bool {
    WORDS.iter().any(|w| w.as_bytes() == operation)
}

/// The three kinds of SET symbols.
#[derive(Clone, Copy, PartialEq, Eq, Debug)]
pub enum Set {
    A,
    B,
    C,
}

/// What a statement of a definition is. T15: decided by the operation as written.
#[derive(Clone, Copy, PartialEq, Eq, Debug)]
pub enum Statement {
    Macro,
    Mend,
    Mexit,
    Local(Set),
    Global(Set),
    Set(Set),
    Aif,
    Ago,
    Anop,
    Actr,
    Model,
}

pub fn statement(operation: &[u8]) -> Statement {
    match operation {
        b"MACRO" => Statement::Macro,
        b"MEND" => Statement::Mend,
        b"MEXIT" => Statement::Mexit,
        b"LCLA" => Statement::Local(Set::A),
        b"LCLB" => Statement::Local(Set::B),
        b"LCLC" => Statement::Local(Set::C),
        b"GBLA" => Statement::Global(Set::A),
        b"GBLB" => Statement::Global(Set::B),
        b"GBLC" => Statement::Global(Set::C),
        b"SETA" => Statement::Set(Set::A),
        b"SETB" => Statement::Set(Set::B),
        b"SETC" => Statement::Set(Set::C),
        b"AIF" => Statement::Aif,
        b"AGO" => Statement::Ago,
        b"ANOP" => Statement::Anop,
        b"ACTR" => Statement::Actr,
        _ => Statement::Model,
    }
}

/// What a variable symbol is in a macro.
#[derive(Clone, Copy, PartialEq, Eq, Debug)]
pub enum Kind {
    Parameter,
    Set(Set),
    Syslist,
    Sysndx,
    Sysect,
}

/// T9: the system symbols that are known; "Any other `&SYS..` reference is unknown".
pub fn system_kind(name: &[u8]) -> Option<Kind> {
    match name {
        b"SYSLIST" => Some(Kind::Syslist),
        b"SYSNDX" => Some(Kind::Sysndx),
        b"SYSECT" => Some(Kind::Sysect),
        _ => None,
    }
}

/// Where a line stands. T3: "outside a definition, a statement whose operation is MACRO opens one. The very next line is its
/// prototype, whatever it holds. From the line after it to the first line whose operation is MEND are the body lines."
#[derive(Clone, Copy, PartialEq, Eq, Debug)]
pub enum Stands {
    Outside,
    Opening,
    Prototype,
    Body,
}

/// A macro's lines, by their indexes in the library: the body follows the prototype, up to MEND (or the library's end).
#[derive(Clone, Copy, Debug)]
pub struct Macro {
    pub prototype: usize,
    pub end: usize,
}

/// A library's lines, where each stands, and its macros.
#[derive(Debug)]
pub struct Library<'a> {
    pub lines: Vec<&'a [u8]>,
    pub stands: Vec<Stands>,
    pub macros: Vec<Macro>,
    /// the last definition has its MEND
    pub closed: bool,
}

impl<'a> Library<'a> {
    pub fn read(file: &'a [u8]) -> Self {
        let lines = lines(file);
        let mut stands = Vec::new();
        let mut macros: Vec<Macro> = Vec::new();
        let mut now = Stands::Outside;
        for (at, line) in lines.iter().enumerate() {
            let operation = fields(line).map_or(&b""[..], |f| f.operation.bytes);
            match now {
                Stands::Outside if operation == b"MACRO" => {
                    stands.push(Stands::Opening);
                    now = Stands::Prototype;
                }
                Stands::Prototype => {
                    stands.push(Stands::Prototype);
                    macros.push(Macro { prototype: at, end: lines.len() });
                    now = Stands::Body;
                }
                Stands::Body => {
                    stands.push(Stands::Body);
                    if operation == b"MEND" {
                        if let Some(last) = macros.last_mut() {
                            last.end = at + 1;
                        }
                        now = Stands::Outside;
                    }
                }
                _ => stands.push(Stands::Outside),
            }
        }
        Library { lines, stands, macros, closed: now == Stands::Outside }
    }

    /// A macro's body lines, MEND the last.
    pub fn body(&self, of: Macro) -> &[&'a [u8]] {
        &self.lines[of.prototype + 1..of.end]
    }

    /// The macro that has this name. X15: "A macro is found wherever in the library it is defined".
    pub fn find(&self, name: &[u8]) -> Option<Macro> {
        self.macros.iter().copied().find(|m| self.macro_name(*m) == name)
    }

    pub fn macro_name(&self, of: Macro) -> &'a [u8] {
        fields(self.lines[of.prototype]).map_or(&b""[..], |f| f.operation.bytes)
    }

    /// The index in the body of the line that a sequence symbol names; a branch searches for it each time.
    pub fn target(&self, of: Macro, symbol: &[u8]) -> Option<usize> {
        self.body(of).iter().position(|line| line_name(line) == Some(symbol))
    }
}

/// The sequence symbol that a line is named by.
pub fn line_name(line: &[u8]) -> Option<&[u8]> {
    fields(line).and_then(|f| sequence_symbol(f.name.bytes))
}

/// "Prototype: optional name parameter, macro name (a letter, up to 7 more letters or digits), positionals, then keywords
/// `&K=default`"
#[derive(Debug, Default)]
pub struct Prototype<'a> {
    pub name: Option<&'a [u8]>,
    pub positionals: Vec<&'a [u8]>,
    pub keywords: Vec<(&'a [u8], &'a [u8])>,
}

/// The prototype of an accepted library.
pub fn prototype(line: &[u8]) -> Prototype<'_> {
    let mut read = Prototype::default();
    if let Some(f) = fields(line) {
        read.name = exactly_one_symbol(f.name.bytes);
        for (from, to) in f.operand.parts() {
            let part = &f.operand.bytes[from..to];
            match (symbol_at_start(part), equals_sign(&f.operand, from, to)) {
                (Some(symbol), Some(equals)) => read.keywords.push((symbol, &f.operand.bytes[equals + 1..to])),
                (Some(symbol), None) => read.positionals.push(symbol),
                (None, _) => {}
            }
        }
    }
    read
}

/// The `=` of a prototype's or call's operand: the first one outside quotes and parentheses.
pub fn equals_sign(operand: &Field, from: usize, to: usize) -> Option<usize> {
    operand.bare(b'=', from, to).first().copied()
}

/// The symbols that a declaration's operand declares.
pub fn declared<'a>(operand: &Field<'a>) -> Vec<&'a [u8]> {
    operand.parts().iter().filter_map(|&(from, to)| symbol_at_start(&operand.bytes[from..to])).collect()
}
