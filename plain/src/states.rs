//! The states that an expansion goes through, as `crates/rules/specs/Machine.antt` has them: what a long run is cut at, so that
//! each part can be computed by itself.
//!
//! A state is one line of JSON, with the names of the record `State`; a byte is the character with its number, a value a number,
//! a truth or a string.

use crate::batch::{read_case, Case};
use crate::definitions::{declared, statement, Library, Statement};
use crate::expanding::{search, start, watched, Level, Run};
use crate::lines::{fields, lines};
use crate::translate;
use crate::values::Value;
use std::io::{self, BufRead, Write};

/// For every case of the input, in order, its states after 0, `every`, 2 `every` .. lines. A refused library has none.
pub fn run(every: u64, input: &mut impl BufRead, to: &mut impl Write) -> io::Result<()> {
    while let Some(case) = read_case(input)? {
        for state in states(&case, every) {
            writeln!(to, "{state}")?;
        }
    }
    to.flush()
}

/// The states of one case, each as a line of text.
pub fn states(case: &Case, every: u64) -> Vec<String> {
    let mut found = Vec::new();
    if let Ok(library) = translate(&case.library) {
        let globals = globals(&library);
        let watch = |run: &Run| {
            if run.steps.is_multiple_of(every) {
                found.push(state(&case.id, run, &globals));
            }
        };
        // the answer is what `batch` is for
        let _ = watched(&library, &case.program, &mut vec![0; case.output], case.workspace, watch);
    }
    found
}

/// The library's globals in the order in which they are first declared, with their values at the start: a run of this expander
/// has a global only once a macro that declares it is called.
fn globals(library: &Library) -> Vec<(Vec<u8>, Value)> {
    let mut found: Vec<(Vec<u8>, Value)> = Vec::new();
    for line in library.macros.iter().flat_map(|m| library.body(*m)) {
        let Some(f) = fields(line) else { continue };
        let Statement::Global(set) = statement(f.operation.bytes) else { continue };
        for symbol in declared(&f.operand) {
            if search(&found, symbol).is_none() {
                found.push((symbol.to_vec(), start(set)));
            }
        }
    }
    found
}

fn state(id: &str, run: &Run, globals: &[(Vec<u8>, Value)]) -> String {
    let left = list(run.program[run.read..].iter().map(|line| string(line)));
    let put_out = list(lines(&run.output[..run.written]).iter().rev().map(|line| string(line)));
    let levels = list(run.levels.iter().rev().enumerate().map(|(depth, l)| level(run.library, l, depth > 0)));
    let shared = list(globals.iter().map(|(name, at_start)| value(search(&run.globals, name).unwrap_or(at_start))));
    format!(
        "{{\"case\":{},\"reached\":{{\"lines\":{left},\"line\":{},\"steps\":{}}},\
         \"output\":{{\"lines\":{put_out},\"room\":{},\"sect\":{}}},\
         \"levels\":{levels},\"shared\":{shared},\"calls\":{}}}",
        string(id.as_bytes()),
        run.read,
        run.steps,
        run.output.len() - run.written,
        string(&run.sysect),
        run.calls
    )
}

/// A caller stands on its call here, and in the definition on the line after it.
fn level(library: &Library, level: &Level, calls: bool) -> String {
    let index = library.macros.iter().position(|m| m.prototype == level.of.prototype).unwrap_or_default();
    let parameters = level.parameters.iter().map(|p| string(&p.1));
    let locals = level.locals.iter().map(|l| value(&l.1));
    format!(
        "{{\"macro\":{index},\"line\":{},\"counter\":{},\"number\":{},\"sect\":{},\"list\":{},\"own\":{}}}",
        level.line + usize::from(calls),
        level.counter,
        level.number,
        string(&level.sysect),
        list(level.syslist.iter().map(|s| string(s))),
        list(parameters.chain(locals))
    )
}

fn value(value: &Value) -> String {
    match value {
        Value::A(number) => number.to_string(),
        Value::B(truth) => truth.to_string(),
        Value::C(bytes) => string(bytes),
    }
}

fn list(items: impl Iterator<Item = String>) -> String {
    format!("[{}]", items.collect::<Vec<_>>().join(","))
}

fn string(bytes: &[u8]) -> String {
    let character = |&b: &u8| match b {
        b'"' | b'\\' => format!("\\{}", b as char),
        b' '..=b'~' => (b as char).to_string(),
        _ => format!("\\u{b:04x}"),
    };
    format!("\"{}\"", bytes.iter().map(character).collect::<String>())
}
