//! 01, "Expanding": the operands of a call, and the layout of a line.

use crate::definitions::{equals_sign, Prototype};
use crate::lines::{letter, letter_or_digit, Field, NAME_LIMIT};

/// Refusal 6: "call operands break the call rules, or unknown or repeated keyword"
#[derive(Clone, Copy, PartialEq, Eq, Debug)]
pub struct BadCall;

/// The written operands of a call: where each value starts and ends in the operand field.
#[derive(Debug, Default)]
pub struct Operands<'a> {
    pub positionals: Vec<(usize, usize)>,
    pub keywords: Vec<(&'a [u8], (usize, usize))>,
}

/// "Call operands divide at written commas, before replacement; a comma from a value divides nothing. An empty field has none."
pub fn operands<'a>(field: &Field<'a>) -> Result<Operands<'a>, BadCall> {
    // "Quotes and parentheses pair as written"
    if !field.pairs(0, field.bytes.len()) {
        return Err(BadCall);
    }
    let mut operands = Operands::default();
    for (from, to) in field.parts() {
        match equals_sign(field, from, to) {
            // "Positionals come first; extra ones are legal."
            None if !operands.keywords.is_empty() => return Err(BadCall),
            None => operands.positionals.push((from, to)),
            // "Outside quotes and parentheses `=` only ends a keyword." "Keywords are written plainly."
            Some(equals) => {
                let keyword = &field.bytes[from..equals];
                let again = equals_sign(field, equals + 1, to).is_some();
                let repeated = operands.keywords.iter().any(|k| k.0 == keyword);
                if !is_keyword(keyword) || again || repeated {
                    return Err(BadCall);
                }
                operands.keywords.push((keyword, (equals + 1, to)));
            }
        }
    }
    Ok(operands)
}

/// X5: "before the `=` stands a letter and up to 6 letters or digits and nothing else"
fn is_keyword(bytes: &[u8]) -> bool {
    bytes.len() <= NAME_LIMIT
        && bytes.first().is_some_and(|&b| letter(b))
        && bytes.iter().all(|&b| letter_or_digit(b))
}

/// The values of a call, once its operands are replaced.
#[derive(Debug, Default)]
pub struct Given {
    pub name: Vec<u8>,
    pub positionals: Vec<Vec<u8>>,
    pub keywords: Vec<(Vec<u8>, Vec<u8>)>,
}

/// Each parameter with its value. "An omitted keyword takes its default."
pub fn parameters(prototype: &Prototype, given: &Given) -> Result<Vec<(Vec<u8>, Vec<u8>)>, BadCall> {
    let known = |name: &[u8]| prototype.keywords.iter().any(|k| k.0 == name);
    if !given.keywords.iter().all(|k| known(&k.0)) {
        return Err(BadCall);
    }
    let mut values = Vec::new();
    if let Some(name) = prototype.name {
        values.push((name.to_vec(), given.name.clone()));
    }
    for (n, symbol) in prototype.positionals.iter().enumerate() {
        values.push((symbol.to_vec(), given.positionals.get(n).cloned().unwrap_or_default()));
    }
    for (symbol, default) in &prototype.keywords {
        let written = given.keywords.iter().find(|k| k.0 == *symbol);
        values.push((symbol.to_vec(), written.map_or(default.to_vec(), |k| k.1.clone())));
    }
    Ok(values)
}

/// "name at 1, operation at 10, operand at 16, at least one space between"
pub fn laid_out(name: &[u8], operation: &[u8], operand: &[u8]) -> Vec<u8> {
    let mut line = name.to_vec();
    put_at(&mut line, 10, operation);
    if !operand.is_empty() {
        put_at(&mut line, 16, operand);
    }
    line
}

/// Puts a field at a column, or one space after what stands there already.
fn put_at(line: &mut Vec<u8>, column: usize, field: &[u8]) {
    line.push(b' ');
    while line.len() < column - 1 {
        line.push(b' ');
    }
    line.extend(field);
}

/// "no trailing spaces"
pub fn trimmed(mut line: Vec<u8>) -> Vec<u8> {
    while line.last() == Some(&b' ') {
        line.pop();
    }
    line
}
