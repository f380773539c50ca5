//! 01, "Expanding" and "Deck and workspace": a program is expanded through the library's own lines, read anew each time one is
//! reached.

use crate::calls::{laid_out, operands, parameters, trimmed, BadCall, Given};
use crate::definitions::*;
use crate::grammar::{IllFormed, Reader};
use crate::lines::*;
use crate::refusals::*;
use crate::values::{BadValue, Evaluation, Names, Value};

/// "Levels run 1 to 5; a macro may call itself."
pub const LEVELS: usize = 5;
/// "Calls are numbered 0001 to 9999 across all levels"
pub const CALLS: u32 = 9999;
/// "ACTR's SETA expression must be 0 to 4096; without it 4096"
pub const COUNTER: i64 = 4096;
/// "The workspace has 32,768 bytes or more"
pub const WORKSPACE: usize = 32_768;
/// "open code over 65,535 bytes" is refusal 5
pub const OPEN_CODE: usize = 65_535;

/// Expands a program; both buffers are left as 01 says.
pub fn expand(
    library: &Library,
    program: &[u8],
    output: &mut [u8],
    workspace: &mut [u8],
) -> Result<Expanded, Refusal> {
    let answer = watched(library, program, output, workspace.len(), |_| {});
    // "its first 32,768 are zero after every expansion, the others unchanged. Too short, it stays unchanged."
    if workspace.len() >= WORKSPACE {
        workspace[..WORKSPACE].fill(0);
    }
    // "A refusal zeroes all of the output"
    if answer.is_err() {
        output.fill(0);
    }
    answer
}

/// The run of an expansion. `watch` sees it before its first line, and after every line that is not refused.
pub(crate) fn watched(
    library: &Library,
    program: &[u8],
    output: &mut [u8],
    workspace: usize,
    mut watch: impl FnMut(&Run),
) -> Result<Expanded, Refusal> {
    let at_once = |number| Refusal { number, open_line: 0, body_line: 0, steps: 0 };
    // "Expansion: 13, 12, 5 (all line 0), then as run."
    if workspace < WORKSPACE {
        return Err(at_once(SHORT_WORKSPACE));
    }
    if program.len() > OPEN_CODE {
        return Err(at_once(OVER_LIMIT));
    }
    let mut run = Run {
        library,
        program: lines(program),
        read: 0,
        globals: Vec::new(),
        levels: Vec::new(),
        calls: 0,
        sysect: Vec::new(),
        output,
        written: 0,
        lines: 0,
        steps: 0,
    };
    watch(&run);
    while let Some(done) = run.next_line() {
        done.map_err(|number| Refusal {
            number,
            open_line: run.read,
            body_line: run.levels.last().map_or(0, |level| level.line + 1),
            steps: run.steps,
        })?;
        watch(&run);
    }
    Ok(Expanded { lines: run.lines, steps: run.steps, bytes: run.written })
}

/// A running macro: its own values, counter, number and place.
pub(crate) struct Level {
    pub of: Macro,
    /// the body line that is run, counted from 0
    pub line: usize,
    pub counter: i64,
    pub number: u32,
    pub sysect: Vec<u8>,
    /// &SYSLIST: the name, then the positionals
    pub syslist: Vec<Vec<u8>>,
    pub parameters: Vec<(Vec<u8>, Vec<u8>)>,
    pub locals: Vec<(Vec<u8>, Value)>,
}

pub(crate) struct Run<'a> {
    pub library: &'a Library<'a>,
    pub program: Vec<&'a [u8]>,
    /// how many of the program's lines are read
    pub read: usize,
    pub globals: Vec<(Vec<u8>, Value)>,
    /// the innermost last
    pub levels: Vec<Level>,
    pub calls: u32,
    pub sysect: Vec<u8>,
    pub output: &'a mut [u8],
    pub written: usize,
    lines: usize,
    pub steps: u64,
}

/// A level's names, beside the globals that all levels share.
struct Here<'a> {
    level: &'a Level,
    globals: &'a [(Vec<u8>, Value)],
}

pub(crate) fn search<'a, T>(pairs: &'a [(Vec<u8>, T)], name: &[u8]) -> Option<&'a T> {
    pairs.iter().find(|p| p.0 == name).map(|p| &p.1)
}

impl Here<'_> {
    fn kind(&self, name: &[u8]) -> Option<Kind> {
        if search(&self.level.parameters, name).is_some() {
            return Some(Kind::Parameter);
        }
        match search(&self.level.locals, name).or(search(self.globals, name)) {
            Some(Value::A(_)) => Some(Kind::Set(Set::A)),
            Some(Value::B(_)) => Some(Kind::Set(Set::B)),
            Some(Value::C(_)) => Some(Kind::Set(Set::C)),
            None => system_kind(name),
        }
    }
}

impl Names for Here<'_> {
    fn parameter(&self, name: &[u8]) -> Vec<u8> {
        search(&self.level.parameters, name).cloned().unwrap_or_default()
    }
    fn set_symbol(&self, name: &[u8]) -> Value {
        search(&self.level.locals, name).or(search(self.globals, name)).cloned().unwrap_or(Value::A(0))
    }
    fn syslist(&self, n: usize) -> Vec<u8> {
        self.level.syslist.get(n).cloned().unwrap_or_default()
    }
    fn positionals(&self) -> usize {
        self.level.syslist.len() - 1
    }
    fn sysndx(&self) -> u32 {
        self.level.number
    }
    fn sysect(&self) -> Vec<u8> {
        self.level.sysect.clone()
    }
}

/// What a line gives: nothing, or a refusal's number.
type Done = Result<(), u8>;

impl From<BadValue> for u8 {
    fn from(_: BadValue) -> u8 {
        BAD_VALUE
    }
}

impl From<BadCall> for u8 {
    fn from(_: BadCall) -> u8 {
        BAD_CALL
    }
}

/// An accepted library has no ill-formed line; the number would be 4.
impl From<IllFormed> for u8 {
    fn from(_: IllFormed) -> u8 {
        ILL_FORMED
    }
}

impl Run<'_> {
    /// The next line: the innermost macro's, or where none runs the program's; none where that is at its end.
    fn next_line(&mut self) -> Option<Done> {
        if let Some(level) = self.levels.last() {
            let line = self.library.body(level.of)[level.line];
            self.steps += 1;
            return Some(self.body_line(line));
        }
        let line = *self.program.get(self.read)?;
        self.read += 1;
        self.steps += 1;
        Some(self.open_line(line))
    }

    /// X1: "1; a remark or a line with no operation is copied; a language word as operation is 15; a macro's name is a call; else
    /// copied, whatever `&` it has."
    fn open_line(&mut self, line: &[u8]) -> Done {
        if ill_written(line) {
            return Err(BAD_BYTE);
        }
        let Some(f) = fields(line) else { return self.put_line(line) };
        if is_word(f.operation.bytes) {
            return Err(LANGUAGE_WORD);
        }
        match self.library.find(f.operation.bytes) {
            // "in open code `&` runs are even"
            Some(_) if has_odd_run(f.operand.bytes) => Err(BAD_CALL),
            Some(called) => self.call_as_written(called, &f),
            None => self.put_line(line),
        }
    }

    fn body_line(&mut self, line: &[u8]) -> Done {
        let Some(f) = fields(line) else {
            // "`*` in column 1 is a remark, copied with no replacement. `.*` is a remark, dropped in a definition"
            if is_copied_remark(line) {
                self.put_line(line)?;
            }
            return self.advance();
        };
        match statement(f.operation.bytes) {
            Statement::Mend | Statement::Mexit => {
                self.levels.pop();
                if let Some(caller) = self.levels.last_mut() {
                    caller.line += 1;
                }
                Ok(())
            }
            Statement::Macro | Statement::Local(_) | Statement::Global(_) | Statement::Anop => self.advance(),
            Statement::Actr => {
                let counter = self.with_names(|here| {
                    let kind = |n: &[u8]| here.kind(n);
                    Ok(Evaluation::new(here).arithmetic(&Reader::new(&f.operand, &kind).arithmetic()?)?)
                })?;
                // "ACTR's SETA expression must be 0 to 4096"
                if !(0..=COUNTER).contains(&counter) {
                    return Err(BAD_VALUE);
                }
                self.innermost().counter = counter;
                self.advance()
            }
            Statement::Set(set) => {
                let value = self.with_names(|here| set_value(here, set, &f))?;
                self.store(f.name.bytes, value);
                self.advance()
            }
            Statement::Ago => self.branch(f.operand.bytes),
            Statement::Aif => {
                let (taken, target) = self.with_names(|here| branch_taken(here, &f))?;
                if taken { self.branch(&f.operand.bytes[target..]) } else { self.advance() }
            }
            Statement::Model => self.model(line, &f),
        }
    }

    fn with_names<T>(&self, evaluate: impl FnOnce(&Here) -> Result<T, u8>) -> Result<T, u8> {
        match self.levels.last() {
            Some(level) => evaluate(&Here { level, globals: &self.globals }),
            None => Err(ILL_FORMED),
        }
    }

    fn innermost(&mut self) -> &mut Level {
        self.levels.last_mut().expect("a body line is run by a level")
    }

    fn advance(&mut self) -> Done {
        self.innermost().line += 1;
        Ok(())
    }

    fn store(&mut self, name_field: &[u8], value: Value) {
        let name = exactly_one_symbol(name_field).unwrap_or_default();
        let level = self.levels.last_mut().expect("a body line is run by a level");
        let found = level.locals.iter_mut().find(|p| p.0 == name).or(self.globals.iter_mut().find(|p| p.0 == name));
        if let Some(symbol) = found {
            symbol.1 = value;
        }
    }

    /// "A taken AIF or AGO lowers the counter; one taken at 0 is refused."
    fn branch(&mut self, target: &[u8]) -> Done {
        let level = self.levels.last_mut().expect("a body line is run by a level");
        if level.counter == 0 {
            return Err(COUNTER_SPENT);
        }
        level.counter -= 1;
        level.line = sequence_symbol(target).and_then(|s| self.library.target(level.of, s)).ok_or(BAD_NAME)?;
        Ok(())
    }

    /// "In a body, a line with no variable symbol in its three fields and no sequence symbol as its name is copied byte for byte.
    /// Any other, calls too, is laid out anew".
    fn model(&mut self, line: &[u8], f: &Fields) -> Done {
        let replaced = [&f.name, &f.operation, &f.operand].iter().any(|x| !variable_symbols(x.bytes).is_empty());
        if replaced || sequence_symbol(f.name.bytes).is_some() {
            return self.laid_out_model(f);
        }
        match self.library.find(f.operation.bytes) {
            Some(called) => self.call_as_written(called, f),
            None => {
                self.put_line(line)?;
                self.advance()
            }
        }
    }

    fn laid_out_model(&mut self, f: &Fields) -> Done {
        // "parts left to right, operands before operators, giving 8"
        let (name, operation, operand) = self.with_names(|here| {
            let kind = |n: &[u8]| here.kind(n);
            let text = |field: &Field| -> Result<Vec<u8>, u8> {
                Ok(Evaluation::new(here).text(&Reader::new(field, &kind).text()?)?)
            };
            // "sequence symbol and remarks left out"
            let name = if sequence_symbol(f.name.bytes).is_some() { Vec::new() } else { text(&f.name)? };
            Ok((name, text(&f.operation)?, text(&f.operand)?))
        })?;
        // "The operation after replacement decides whether it is a call." "A call's values keep their trailing spaces, and these
        // count in its line's length."
        let called = self.library.find(&operation);
        let whole = laid_out(&name, &operation, &operand);
        let line = if called.is_some() { whole } else { trimmed(whole) };
        // 7: "re-laid line over 71 .. empty operation"
        if line.len() > LINE_LIMIT || operation.is_empty() {
            return Err(TOO_LONG);
        }
        if is_word(&operation) {
            return Err(LANGUAGE_WORD);
        }
        match called {
            Some(called) => {
                let given = self.with_names(|here| given_by(here, name, &f.operand))?;
                self.enter(called, given)
            }
            None => {
                self.put_line(&line)?;
                self.advance()
            }
        }
    }

    /// A call whose values are the written bytes (X2, X7).
    fn call_as_written(&mut self, called: Macro, f: &Fields) -> Done {
        let written = operands(&f.operand)?;
        let bytes = |(from, to): (usize, usize)| f.operand.bytes[from..to].to_vec();
        // "A written sequence symbol is no name for the called macro."
        let name = if sequence_symbol(f.name.bytes).is_some() { Vec::new() } else { f.name.bytes.to_vec() };
        let given = Given {
            name,
            positionals: written.positionals.iter().map(|p| bytes(*p)).collect(),
            keywords: written.keywords.iter().map(|k| (k.0.to_vec(), bytes(k.1))).collect(),
        };
        self.enter(called, given)
    }

    /// A new level. The caller stays on its line until the level returns: "A refused call has its caller's place."
    fn enter(&mut self, called: Macro, given: Given) -> Done {
        let prototype = prototype(self.library.lines[called.prototype]);
        let parameters = parameters(&prototype, &given)?;
        if self.levels.len() == LEVELS {
            return Err(LEVEL_SIX);
        }
        if self.calls == CALLS {
            return Err(CALLS_SPENT);
        }
        self.calls += 1;
        let mut locals = Vec::new();
        for line in self.library.body(called) {
            let Some(f) = fields(line) else { continue };
            match statement(f.operation.bytes) {
                // "Locals start at 0, 0 or empty at each call."
                Statement::Local(set) => locals.extend(declared(&f.operand).iter().map(|s| (s.to_vec(), start(set)))),
                // "Globals start so once an expansion and are shared by name"
                Statement::Global(set) => {
                    for symbol in declared(&f.operand) {
                        if search(&self.globals, symbol).is_none() {
                            self.globals.push((symbol.to_vec(), start(set)));
                        }
                    }
                }
                Statement::Actr => continue,
                _ => break,
            }
        }
        let mut syslist = vec![given.name];
        syslist.extend(given.positionals);
        self.levels.push(Level {
            of: called,
            line: 0,
            counter: COUNTER,
            number: self.calls,
            sysect: self.sysect.clone(),
            syslist,
            parameters,
            locals,
        });
        Ok(())
    }

    /// 14: "no room .. for the next output line". X8: each output line is read back for &SYSECT.
    fn put_line(&mut self, line: &[u8]) -> Done {
        let end = self.written + line.len() + 1;
        if end > self.output.len() {
            return Err(NO_ROOM);
        }
        self.output[self.written..end - 1].copy_from_slice(line);
        self.output[end - 1] = b'\n';
        self.written = end;
        self.lines += 1;
        if let Some(f) = fields(line) {
            if matches!(f.operation.bytes, b"CSECT" | b"DSECT" | b"START") {
                self.sysect = f.name.bytes.to_vec();
            }
        }
        Ok(())
    }
}

pub(crate) fn start(set: Set) -> Value {
    match set {
        Set::A => Value::A(0),
        Set::B => Value::B(false),
        Set::C => Value::C(Vec::new()),
    }
}

/// The value of a SET line's operand: 8 first, then 7.
fn set_value(here: &Here, set: Set, f: &Fields) -> Result<Value, u8> {
    let kind = |n: &[u8]| here.kind(n);
    let mut operand = Reader::new(&f.operand, &kind);
    let evaluation = Evaluation::new(here);
    let value = match set {
        Set::A => Value::A(evaluation.arithmetic(&operand.arithmetic()?)?),
        Set::B => Value::B(evaluation.condition(&operand.parenthesised()?)?),
        Set::C => Value::C(evaluation.setc(&operand.setc()?)?),
    };
    if evaluation.was_over() { Err(TOO_LONG) } else { Ok(value) }
}

/// Whether an AIF is taken, and where its target stands in its operand.
fn branch_taken(here: &Here, f: &Fields) -> Result<(bool, usize), u8> {
    let kind = |n: &[u8]| here.kind(n);
    let mut operand = Reader::new(&f.operand, &kind);
    let condition = operand.parenthesised()?;
    let evaluation = Evaluation::new(here);
    let taken = evaluation.condition(&condition)?;
    if evaluation.was_over() { Err(TOO_LONG) } else { Ok((taken, operand.place())) }
}

/// The values of an inner call: its operands as written, each replaced by itself.
fn given_by(here: &Here, name: Vec<u8>, field: &Field) -> Result<Given, u8> {
    let kind = |n: &[u8]| here.kind(n);
    let value = |(from, to): (usize, usize)| -> Result<Vec<u8>, u8> {
        Ok(Evaluation::new(here).text(&Reader::part(field, &kind, from, to).text()?)?)
    };
    let written = operands(field)?;
    let mut given = Given { name, ..Given::default() };
    for part in written.positionals {
        given.positionals.push(value(part)?);
    }
    for (keyword, part) in written.keywords {
        given.keywords.push((keyword.to_vec(), value(part)?));
    }
    Ok(given)
}
