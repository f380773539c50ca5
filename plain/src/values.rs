//! 01, "Values": what references, expressions and sublists stand for.

use crate::definitions::Kind;
use crate::grammar::{Arithmetic, Condition, Piece, Reference, Relation, Setc, Text};
use crate::lines::Field;
use std::cell::Cell;

/// "SETC: 0 to 255 bytes, in conditions and before substrings too."
pub const SETC_LIMIT: usize = 255;

/// The value of a SET symbol.
#[derive(Clone, PartialEq, Eq, Debug)]
pub enum Value {
    A(i64),
    B(bool),
    C(Vec<u8>),
}

impl Value {
    /// "In text a SETA value stands as its magnitude, no leading zeros; 0 is `0`. SETB stands as 0 or 1."
    fn in_text(&self) -> Vec<u8> {
        match self {
            Value::A(n) => n.unsigned_abs().to_string().into_bytes(),
            Value::B(b) => vec![if *b { b'1' } else { b'0' }],
            Value::C(s) => s.clone(),
        }
    }
}

/// Refusal 8: "value not digits, out of range, bad substring, subscript or ACTR number"
#[derive(Clone, Copy, PartialEq, Eq, Debug)]
pub struct BadValue;

type Evaluated<T> = Result<T, BadValue>;

/// What a level's names stand for.
pub trait Names {
    fn parameter(&self, name: &[u8]) -> Vec<u8>;
    fn set_symbol(&self, name: &[u8]) -> Value;
    /// &SYSLIST(0), the name, and then the positionals
    fn syslist(&self, n: usize) -> Vec<u8>;
    fn positionals(&self) -> usize;
    fn sysndx(&self) -> u32;
    fn sysect(&self) -> Vec<u8>;
}

/// Evaluation of one statement. V9: a string over 255 bytes keeps its true length; that there was one is kept in `over`.
pub struct Evaluation<'a> {
    names: &'a dyn Names,
    over: Cell<bool>,
}

impl<'a> Evaluation<'a> {
    pub fn new(names: &'a dyn Names) -> Self {
        Evaluation { names, over: Cell::new(false) }
    }

    /// Some string was over 255 bytes: refusal 7.
    pub fn was_over(&self) -> bool {
        self.over.get()
    }

    fn measured(&self, string: Vec<u8>) -> Vec<u8> {
        if string.len() > SETC_LIMIT {
            self.over.set(true);
        }
        string
    }

    /// The text that a reference stands for.
    fn text_of(&self, reference: &Reference) -> Evaluated<Vec<u8>> {
        let subscripts: Vec<i64> = reference.subscripts.iter().map(|s| self.arithmetic(s)).collect::<Result<_, _>>()?;
        Ok(match (reference.kind, subscripts.as_slice()) {
            (Kind::Parameter, []) => self.names.parameter(&reference.name),
            (Kind::Parameter, [n, ..]) => entry(&self.names.parameter(&reference.name), *n)?,
            (Kind::Set(_), _) => self.names.set_symbol(&reference.name).in_text(),
            (Kind::Syslist, []) => Vec::new(), // only after N', which asks for no text
            (Kind::Syslist, [n]) => self.syslist(*n)?,
            (Kind::Syslist, [n, m, ..]) => entry(&self.syslist(*n)?, *m)?,
            // V11: "&SYSNDX is four digits in text and strings"
            (Kind::Sysndx, _) => format!("{:04}", self.names.sysndx()).into_bytes(),
            (Kind::Sysect, _) => self.names.sysect(),
        })
    }

    /// "&SYSLIST(0) is the name, &SYSLIST(n) positional n (empty past the last) .. A negative n, or m below 1, is refused."
    fn syslist(&self, n: i64) -> Evaluated<Vec<u8>> {
        usize::try_from(n).map(|n| self.names.syslist(n)).map_err(|_| BadValue)
    }

    pub fn arithmetic(&self, expression: &Arithmetic) -> Evaluated<i64> {
        match expression {
            Arithmetic::Number(n) => Ok(*n),
            Arithmetic::Reference(reference) => match reference.kind {
                Kind::Set(_) => match self.names.set_symbol(&reference.name) {
                    Value::A(n) => Ok(n),
                    other => number(&other.in_text()).ok_or(BadValue),
                },
                Kind::Sysndx => Ok(i64::from(self.names.sysndx())),
                _ => number(&self.text_of(reference)?).ok_or(BadValue),
            },
            // "K' counts bytes, also of a SETC or system value."
            Arithmetic::Count(reference) => Ok(self.text_of(reference)?.len() as i64),
            // "N'&SYSLIST counts positionals, omitted ones too."
            Arithmetic::Entries(reference) if reference.kind == Kind::Syslist && reference.subscripts.is_empty() => {
                Ok(self.names.positionals() as i64)
            }
            Arithmetic::Entries(reference) => Ok(entries_of(&self.text_of(reference)?) as i64),
            Arithmetic::Operation(left, sign, right) => {
                let (left, right) = (self.arithmetic(left)?, self.arithmetic(right)?);
                in_range(match sign {
                    b'+' => left + right,
                    b'-' => left - right,
                    b'*' => left * right,
                    // "Division drops the fraction toward zero; a zero divisor gives 0."
                    _ if right == 0 => 0,
                    _ => left / right,
                })
            }
        }
    }

    /// A text with its references replaced.
    pub fn text(&self, text: &Text) -> Evaluated<Vec<u8>> {
        let mut bytes = Vec::new();
        for piece in text {
            match piece {
                Piece::Byte(b) => bytes.push(*b),
                Piece::Reference(reference) => bytes.extend(self.text_of(reference)?),
            }
        }
        Ok(bytes)
    }

    pub fn setc(&self, expression: &Setc) -> Evaluated<Vec<u8>> {
        match expression {
            Setc::Type(reference) => Ok(vec![type_of(&self.text_of(reference)?)]),
            Setc::Joined(strings) => {
                let mut joined = Vec::new();
                for (text, part) in strings {
                    let string = self.measured(self.text(text)?);
                    joined.extend(match part {
                        None => string,
                        Some((start, count)) => {
                            substring(&string, self.arithmetic(start)?, self.arithmetic(count)?)?
                        }
                    });
                }
                Ok(self.measured(joined))
            }
        }
    }

    /// V6: "AND and OR evaluate both sides".
    pub fn condition(&self, condition: &Condition) -> Evaluated<bool> {
        Ok(match condition {
            Condition::Constant(b) => *b,
            Condition::Symbol(reference) => self.names.set_symbol(&reference.name) == Value::B(true),
            Condition::Numbers(left, relation, right) => {
                holds(*relation, self.arithmetic(left)?.cmp(&self.arithmetic(right)?))
            }
            Condition::Strings(left, relation, right) => {
                let (left, right) = (self.setc(left)?, self.setc(right)?);
                // "Of two strings the shorter is less; at equal length the first differing byte decides, by its stored code."
                holds(*relation, left.len().cmp(&right.len()).then_with(|| left.cmp(&right)))
            }
            Condition::Not(inner) => !self.condition(inner)?,
            Condition::And(left, right) => {
                let (left, right) = (self.condition(left)?, self.condition(right)?);
                left && right
            }
            Condition::Or(left, right) => {
                let (left, right) = (self.condition(left)?, self.condition(right)?);
                left || right
            }
        })
    }
}

fn holds(relation: Relation, order: std::cmp::Ordering) -> bool {
    match relation {
        Relation::Eq => order.is_eq(),
        Relation::Ne => order.is_ne(),
        Relation::Lt => order.is_lt(),
        Relation::Le => order.is_le(),
        Relation::Gt => order.is_gt(),
        Relation::Ge => order.is_ge(),
    }
}

/// "SETA: -2147483648 to 2147483647, every intermediate too."
pub fn in_range(n: i64) -> Evaluated<i64> {
    i32::try_from(n).map(i64::from).map_err(|_| BadValue)
}

/// The number of a text that is "1 to 10 digits within range".
pub fn number(text: &[u8]) -> Option<i64> {
    if text.is_empty() || text.len() > 10 || !text.iter().all(|b| b.is_ascii_digit()) {
        return None;
    }
    let n = text.iter().fold(0i64, |n, d| n * 10 + i64::from(d - b'0'));
    in_range(n).ok()
}

/// "T' is O when empty, N when 1 to 10 digits within range, else U."
pub fn type_of(operand: &[u8]) -> u8 {
    match operand {
        [] => b'O',
        _ if number(operand).is_some() => b'N',
        _ => b'U',
    }
}

/// "Start must be 1 to the string's length, count 0 or more; a count past the end stops at the end."
pub fn substring(string: &[u8], start: i64, count: i64) -> Evaluated<Vec<u8>> {
    if start < 1 || start > string.len() as i64 || count < 0 {
        return Err(BadValue);
    }
    Ok(string.iter().copied().skip(start as usize - 1).take(count as usize).collect())
}

/// "A sublist is an operand whose first byte is a `(` paired with its last byte. Entries divide at commas outside inner quotes and
/// parentheses." None where the operand is no sublist. V8: read by its bytes alone, with the quotes and marks of an operand.
pub fn entries(operand: &[u8]) -> Option<Vec<&[u8]>> {
    if operand.first() != Some(&b'(') {
        return None;
    }
    let field = Field::quoted(operand);
    let mut open = 1;
    let mut from = 1;
    let mut entries = Vec::new();
    for at in 1..operand.len() {
        match field.outside(at) {
            Some(b'(') => open += 1,
            Some(b')') => {
                open -= 1;
                if open == 0 {
                    entries.push(&operand[from..at]);
                    return (at + 1 == operand.len()).then_some(entries);
                }
            }
            Some(b',') if open == 1 => {
                entries.push(&operand[from..at]);
                from = at + 1;
            }
            _ => {}
        }
    }
    None
}

/// "N' is the number of entries, 1 for another operand, 0 for an empty one."
pub fn entries_of(operand: &[u8]) -> usize {
    if operand.is_empty() { 0 } else { entries(operand).map_or(1, |e| e.len()) }
}

/// "`&P(n)` is entry n, empty past the last; of another operand, entry 1 is all of it. n below 1 is refused."
pub fn entry(operand: &[u8], n: i64) -> Evaluated<Vec<u8>> {
    let place = usize::try_from(n).ok().and_then(|n| n.checked_sub(1)).ok_or(BadValue)?;
    let all = entries(operand).unwrap_or_else(|| vec![operand]);
    Ok(all.get(place).map_or(Vec::new(), |e| e.to_vec()))
}
