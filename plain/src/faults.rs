//! 01, "Refusal numbers and places", for translation. T1: "Each number 1 to 5 is a property of a line and its surroundings, looked
//! at by itself; the answer is the lowest line that has any, and the lowest number that this line has."

use crate::definitions::*;
use crate::grammar::{IllFormed, Reader};
use crate::lines::*;
use crate::refusals::*;

/// The library as accepted, or its first fault. "Translation answers 1 to 5 for the lowest faulty line, lowest number on it
/// (missing MEND: one past the last line)".
pub fn translate(file: &[u8]) -> Result<Library<'_>, Fault> {
    let library = Library::read(file);
    let mut around = Surroundings::default();
    let mut macros = library.macros.iter().copied();
    for (at, (line, stands)) in library.lines.iter().zip(&library.stands).enumerate() {
        if *stands == Stands::Prototype {
            around.enter(macros.next());
        }
        if let Some(number) = lowest_fault(&library, &around, at) {
            return Err(Fault { number, line: at + 1 });
        }
        around.pass(line, *stands);
    }
    if library.closed {
        Ok(library)
    } else {
        Err(Fault { number: OUT_OF_PLACE, line: library.lines.len() + 1 })
    }
}

/// What the lines before a line have brought.
#[derive(Default)]
struct Surroundings<'a> {
    macro_lines: usize,
    macro_names: Vec<&'a [u8]>,
    globals: Vec<(&'a [u8], Set)>,
    /// of the macro that the line stands in
    now: Option<Macro>,
    parameters: Vec<&'a [u8]>,
    locals: Vec<(&'a [u8], Set)>,
    own_globals: Vec<(&'a [u8], Set)>,
    names: Vec<&'a [u8]>,
    /// T5: declarations, then ACTR, then the rest
    after_declarations: bool,
}

impl<'a> Surroundings<'a> {
    fn enter(&mut self, now: Option<Macro>) {
        self.now = now;
        self.parameters.clear();
        self.locals.clear();
        self.own_globals.clear();
        self.names.clear();
        self.after_declarations = false;
    }

    /// What a line without faults brings to the lines after it.
    fn pass(&mut self, line: &'a [u8], stands: Stands) {
        let Some(f) = fields(line) else { return };
        match stands {
            Stands::Outside => {}
            Stands::Opening => self.macro_lines += 1,
            Stands::Prototype => {
                let read = prototype(line);
                self.macro_names.push(f.operation.bytes);
                self.parameters.extend(read.name);
                self.parameters.extend(read.positionals);
                self.parameters.extend(read.keywords.iter().map(|k| k.0));
            }
            Stands::Body => {
                self.names.extend(sequence_symbol(f.name.bytes));
                match statement(f.operation.bytes) {
                    Statement::Local(kind) => self.locals.extend(declared(&f.operand).into_iter().map(|s| (s, kind))),
                    Statement::Global(kind) => {
                        for symbol in declared(&f.operand) {
                            self.own_globals.push((symbol, kind));
                            if !self.globals.iter().any(|g| g.0 == symbol) {
                                self.globals.push((symbol, kind));
                            }
                        }
                    }
                    _ => self.after_declarations = true,
                }
            }
        }
    }

    /// T9: "Known are the macro's parameters, the SET symbols that it declares on earlier lines, and &SYSNDX, &SYSECT, &SYSLIST."
    fn kind(&self, name: &[u8]) -> Option<Kind> {
        let set = |s: &&(&[u8], Set)| s.0 == name;
        if self.parameters.contains(&name) {
            Some(Kind::Parameter)
        } else if let Some(s) = self.locals.iter().find(set).or(self.own_globals.iter().find(set)) {
            Some(Kind::Set(s.1))
        } else {
            system_kind(name)
        }
    }

    fn is_declared(&self, name: &[u8]) -> bool {
        !matches!(self.kind(name), None | Some(Kind::Syslist | Kind::Sysndx | Kind::Sysect))
    }
}

/// The lowest number that the line has.
fn lowest_fault(library: &Library, around: &Surroundings, at: usize) -> Option<u8> {
    let line = library.lines[at];
    if ill_written(line) {
        return Some(BAD_BYTE);
    }
    let at_line = At { library, around, line, stands: library.stands[at], at };
    if at_line.out_of_place() {
        Some(OUT_OF_PLACE)
    } else if at_line.bad_name() {
        Some(BAD_NAME)
    } else {
        match at_line.deepest() {
            Err(IllFormed) => Some(ILL_FORMED),
            Ok(deepest) if deepest > NESTING || at_line.over_limit() => Some(OVER_LIMIT),
            Ok(_) => None,
        }
    }
}

/// A line and its surroundings.
struct At<'a> {
    library: &'a Library<'a>,
    around: &'a Surroundings<'a>,
    line: &'a [u8],
    stands: Stands,
    at: usize,
}

impl At<'_> {
    /// 2: "line out of place, no operation in a definition"
    fn out_of_place(&self) -> bool {
        let read = fields(self.line);
        let operation = read.as_ref().map_or(&b""[..], |f| f.operation.bytes);
        match self.stands {
            // "Outside definitions only remarks and lines with no operation may stand."
            Stands::Outside => !operation.is_empty(),
            Stands::Opening => false,
            // T4: "A remark, or a line with no operation, where the prototype should stand is out of place"
            Stands::Prototype => operation.is_empty(),
            Stands::Body if read.is_none() => false,
            Stands::Body => match statement(operation) {
                Statement::Macro => true,
                Statement::Local(_) | Statement::Global(_) => self.around.after_declarations,
                Statement::Actr => self.around.after_declarations,
                _ => operation.is_empty(),
            },
        }
    }

    /// 3: "macro name ill-formed or a language word; name or symbol too long, used twice or unknown; `&SYS..` declared"
    fn bad_name(&self) -> bool {
        let Some(f) = fields(self.line) else { return false };
        let name = f.name.bytes;
        // T12: "On every statement a name that begins with `.`, a letter and seven or more letters or digits is 3"
        let long_name = sequence_start(name).is_some_and(|s| s.len() > NAME_LIMIT);
        match self.stands {
            Stands::Outside => false,
            Stands::Opening => long_name || has_long_symbol(name),
            Stands::Prototype => long_name || self.bad_prototype_name(&f),
            Stands::Body => {
                long_name
                    || self.has_unknown_symbol(name)
                    || sequence_symbol(name).is_some_and(|s| self.around.names.contains(&s))
                    || self.bad_body_name(&f)
            }
        }
    }

    /// T11
    fn bad_prototype_name(&self, f: &Fields) -> bool {
        let operation = f.operation.bytes;
        let well_formed = operation.len() <= MACRO_NAME
            && operation.first().is_some_and(|&b| letter(b))
            && operation.iter().all(|&b| letter_or_digit(b));
        if !well_formed || is_word(operation) || self.around.macro_names.contains(&operation) {
            return true;
        }
        // "A symbol over 7 characters anywhere in the name field, or in a part up to its `=`, is 3."
        if has_long_symbol(f.name.bytes) {
            return true;
        }
        let mut symbols: Vec<&[u8]> = symbol_at_start(f.name.bytes).into_iter().collect();
        for (from, to) in f.operand.parts() {
            let end = equals_sign(&f.operand, from, to).unwrap_or(to);
            if has_long_symbol(&f.operand.bytes[from..end]) {
                return true;
            }
            symbols.extend(symbol_at_start(&f.operand.bytes[from..to]));
        }
        declares_wrongly(&symbols, |_| false)
    }

    fn bad_body_name(&self, f: &Fields) -> bool {
        let operand = f.operand.bytes;
        match statement(f.operation.bytes) {
            // "What follows MACRO, ANOP, MEXIT or MEND is remarks."
            Statement::Macro | Statement::Anop | Statement::Mexit | Statement::Mend => false,
            Statement::Local(_) => {
                has_long_symbol(operand) || declares_wrongly(&declared(&f.operand), |s| self.around.is_declared(s))
            }
            Statement::Global(kind) => {
                // T10: "a global name declared with another kind anywhere earlier"
                let other_kind = |s: &[u8]| self.around.globals.iter().any(|g| g.0 == s && g.1 != kind);
                has_long_symbol(operand)
                    || declares_wrongly(&declared(&f.operand), |s| self.around.is_declared(s) || other_kind(s))
            }
            Statement::Ago => self.has_unknown_symbol(operand) || self.bad_target(operand),
            Statement::Aif => {
                self.has_unknown_symbol(operand)
                    || paired_end(&f.operand).is_some_and(|end| self.bad_target(&operand[end..]))
            }
            Statement::Set(_) | Statement::Actr => self.has_unknown_symbol(operand),
            Statement::Model => self.has_unknown_symbol(f.operation.bytes) || self.has_unknown_symbol(operand),
        }
    }

    /// T8: "over 7 characters after `&`, or not known in this macro at this line"
    fn has_unknown_symbol(&self, bytes: &[u8]) -> bool {
        variable_symbols(bytes).iter().any(|s| s.len() > NAME_LIMIT || self.around.kind(s).is_none())
    }

    /// T14: "the longest run of letters and digits there is the symbol: over 7, or the name of no body line (T3; MEND's line
    /// included), is 3 on the branching line".
    fn bad_target(&self, target: &[u8]) -> bool {
        let known = |s: &[u8]| self.around.now.is_some_and(|m| self.library.target(m, s).is_some());
        sequence_start(target).is_some_and(|s| s.len() > NAME_LIMIT || !known(s))
    }

    /// 4: "operand, expression, `&` run or name field ill-formed or of the wrong kind"; else how deep its parentheses nest.
    fn deepest(&self) -> Result<usize, IllFormed> {
        let Some(f) = fields(self.line) else { return Ok(0) };
        match self.stands {
            Stands::Outside => Ok(0),
            Stands::Opening => good(f.name.bytes.is_empty(), 0),
            Stands::Prototype => good(good_prototype(&f), 0),
            Stands::Body => self.deepest_in_body(&f),
        }
    }

    fn deepest_in_body(&self, f: &Fields) -> Result<usize, IllFormed> {
        let kind = |name: &[u8]| self.around.kind(name);
        let name = f.name.bytes;
        // "AIF, AGO, ANOP, MEXIT, MEND have a sequence symbol or an empty name."
        let named_or_empty = name.is_empty() || sequence_symbol(name).is_some();
        let mut operand = Reader::new(&f.operand, &kind);
        match statement(f.operation.bytes) {
            Statement::Macro => {}
            Statement::Anop | Statement::Mexit | Statement::Mend => good(named_or_empty, 0).map(drop)?,
            // "These lines and MACRO have an empty name field." T13: "one or more variable symbols divided by commas, nothing else"
            Statement::Local(_) | Statement::Global(_) => {
                let parts = f.operand.parts();
                let each = parts.iter().all(|&(from, to)| exactly_one_symbol(&f.operand.bytes[from..to]).is_some());
                good(name.is_empty() && !parts.is_empty() && each, 0).map(drop)?
            }
            Statement::Actr => {
                good(name.is_empty(), 0)?;
                operand.arithmetic()?;
                operand.ends()?;
            }
            Statement::Set(set) => {
                // "A SET line is named by a declared symbol of its kind."
                good(exactly_one_symbol(name).and_then(kind) == Some(Kind::Set(set)), 0)?;
                match set {
                    Set::A => operand.arithmetic().map(drop)?,
                    Set::B => operand.parenthesised().map(drop)?,
                    Set::C => operand.setc().map(drop)?,
                }
                operand.ends()?;
            }
            Statement::Aif => {
                good(named_or_empty, 0)?;
                operand.parenthesised()?;
                good_target(&f.operand.bytes[operand.place()..])?;
            }
            Statement::Ago => {
                good(named_or_empty, 0)?;
                good_target(f.operand.bytes)?;
            }
            Statement::Model => {
                // "a body name starting with `.` must be one"
                let mut deepest = 0;
                if name.first() == Some(&b'.') {
                    good(sequence_symbol(name).is_some(), 0)?;
                } else {
                    let mut reader = Reader::new(&f.name, &kind);
                    reader.text()?;
                    deepest = reader.deepest;
                }
                let mut operation = Reader::new(&f.operation, &kind);
                operation.text()?;
                operand.text()?;
                return Ok(deepest.max(operation.deepest).max(operand.deepest));
            }
        }
        Ok(operand.deepest)
    }

    /// 5: "a limit passed"
    fn over_limit(&self) -> bool {
        if self.at >= LINES {
            return true;
        }
        let Some(f) = fields(self.line) else { return false };
        match (self.stands, statement(f.operation.bytes)) {
            (Stands::Opening, _) => self.around.macro_lines >= MACROS,
            (Stands::Prototype, _) => {
                f.operand.parts().len() + usize::from(!f.name.bytes.is_empty()) > PARAMETERS
            }
            (Stands::Body, Statement::Local(_)) => self.around.locals.len() + declared(&f.operand).len() > LOCALS,
            (Stands::Body, Statement::Global(_)) => {
                let new = |s: &&[u8]| !self.around.globals.iter().any(|g| g.0 == *s);
                self.around.globals.len() + declared(&f.operand).iter().filter(|s| new(s)).count() > GLOBALS
            }
            _ => false,
        }
    }
}

fn good(test: bool, deepest: usize) -> Result<usize, IllFormed> {
    test.then_some(deepest).ok_or(IllFormed)
}

fn has_long_symbol(bytes: &[u8]) -> bool {
    variable_symbols(bytes).iter().any(|s| s.len() > NAME_LIMIT)
}

/// Of the symbols that a line declares, one begins `&SYS`, stands twice, or was declared before.
fn declares_wrongly(symbols: &[&[u8]], before: impl Fn(&[u8]) -> bool) -> bool {
    let wrong = |(i, s): (usize, &&[u8])| s.starts_with(b"SYS") || symbols[..i].contains(s) || before(s);
    symbols.iter().enumerate().any(wrong)
}

/// T14: the place after "the `)` that pairs with the `(` at its start (quotes aside)".
fn paired_end(operand: &Field) -> Option<usize> {
    let mut open = 0usize;
    for at in 0..operand.bytes.len() {
        match operand.outside(at) {
            Some(b'(') => open += 1,
            Some(b')') if open == 1 => return Some(at + 1),
            Some(b')') => open = open.saturating_sub(1),
            _ => {}
        }
        if open == 0 {
            return None; // it does not start with `(`
        }
    }
    None
}

/// T14: "It begins with `.` and a letter, else 4 .. anything after it is 4."
fn good_target(target: &[u8]) -> Result<usize, IllFormed> {
    good(sequence_symbol(target).is_some(), 0)
}

/// T11, number 4: the name field, the order and form of the parts, and the defaults, "paired and `&` runs even as in an open call".
fn good_prototype(f: &Fields) -> bool {
    let name = f.name.bytes;
    if !name.is_empty() && exactly_one_symbol(name).is_none() {
        return false;
    }
    let mut keywords = false;
    for (from, to) in f.operand.parts() {
        match equals_sign(&f.operand, from, to) {
            None => {
                if keywords || exactly_one_symbol(&f.operand.bytes[from..to]).is_none() {
                    return false;
                }
            }
            Some(equals) => {
                keywords = true;
                let default = &f.operand.bytes[equals + 1..to];
                let well = exactly_one_symbol(&f.operand.bytes[from..equals]).is_some()
                    && !has_odd_run(default)
                    && f.operand.pairs(equals + 1, to)
                    && f.operand.bare(b'=', equals + 1, to).is_empty();
                if !well {
                    return false;
                }
            }
        }
    }
    true
}
