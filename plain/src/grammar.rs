//! 01, "Values" and "Lines and fields": how texts and expressions are formed. A text or an expression is read into a tree, or is
//! ill-formed (refusal 4); `deepest` is what refusal 5 is about.

use crate::definitions::{Kind, Set};
use crate::lines::{ampersand, letter, letter_or_digit, run, Ampersand, Field, Role};

/// The text or expression is ill-formed: refusal 4.
#[derive(Clone, Copy, PartialEq, Eq, Debug)]
pub struct IllFormed;

/// A reference: a variable symbol with its subscripts (none, one, or two of &SYSLIST).
#[derive(Clone, PartialEq, Eq, Debug)]
pub struct Reference {
    pub name: Vec<u8>,
    pub kind: Kind,
    pub subscripts: Vec<Arithmetic>,
}

#[derive(Clone, PartialEq, Eq, Debug)]
pub enum Arithmetic {
    Number(i64),
    Reference(Reference),
    /// K'
    Count(Reference),
    /// N'
    Entries(Reference),
    Operation(Box<Arithmetic>, u8, Box<Arithmetic>),
}

/// A text: bytes, and references to be replaced.
#[derive(Clone, PartialEq, Eq, Debug)]
pub enum Piece {
    Byte(u8),
    Reference(Reference),
}

pub type Text = Vec<Piece>;

/// "Quoted strings, each with an optional `(start,count)`, joined by periods; or T' alone."
#[derive(Clone, PartialEq, Eq, Debug)]
pub enum Setc {
    Type(Reference),
    Joined(Vec<(Text, Option<(Arithmetic, Arithmetic)>)>),
}

#[derive(Clone, Copy, PartialEq, Eq, Debug)]
pub enum Relation {
    Eq,
    Ne,
    Lt,
    Le,
    Gt,
    Ge,
}

#[derive(Clone, PartialEq, Eq, Debug)]
pub enum Condition {
    Constant(bool),
    Symbol(Reference),
    Numbers(Arithmetic, Relation, Arithmetic),
    Strings(Setc, Relation, Setc),
    Not(Box<Condition>),
    And(Box<Condition>, Box<Condition>),
    Or(Box<Condition>, Box<Condition>),
}

/// A reader of one field, from a place on. `kind` says what a variable symbol is in this macro.
pub struct Reader<'a> {
    field: &'a Field<'a>,
    kind: &'a dyn Fn(&[u8]) -> Option<Kind>,
    at: usize,
    end: usize,
    open: usize,
    /// the most pairs of parentheses that were open at once
    pub deepest: usize,
}

type Read<T> = Result<T, IllFormed>;

impl<'a> Reader<'a> {
    pub fn new(field: &'a Field<'a>, kind: &'a dyn Fn(&[u8]) -> Option<Kind>) -> Self {
        Reader::part(field, kind, 0, field.bytes.len())
    }

    pub fn part(field: &'a Field<'a>, kind: &'a dyn Fn(&[u8]) -> Option<Kind>, at: usize, end: usize) -> Self {
        Reader { field, kind, at, end, open: 0, deepest: 0 }
    }

    /// The byte that comes next, if it is no quote and no mark. (Inside quotes too: a subscript may stand there.)
    fn next(&self) -> Option<u8> {
        let plain = self.at < self.end && matches!(self.field.roles[self.at], Role::Text | Role::Quoted);
        plain.then(|| self.field.bytes[self.at])
    }

    fn next_is(&self, role: Role) -> bool {
        self.at < self.end && self.field.roles[self.at] == role
    }

    fn pass(&mut self, byte: u8) -> bool {
        let there = self.next() == Some(byte);
        self.at += there as usize;
        there
    }

    fn expect(&mut self, byte: u8) -> Read<()> {
        self.pass(byte).then_some(()).ok_or(IllFormed)
    }

    /// Past a `(`, which is one pair more that is open.
    fn opens(&mut self) -> Read<()> {
        self.expect(b'(')?;
        self.open += 1;
        self.deepest = self.deepest.max(self.open);
        Ok(())
    }

    fn closes(&mut self) -> Read<()> {
        self.expect(b')')?;
        self.open -= 1;
        Ok(())
    }

    fn spaces(&mut self) {
        while self.pass(b' ') {}
    }

    /// Nothing is left.
    pub fn ends(&self) -> Read<()> {
        (self.at == self.end).then_some(()).ok_or(IllFormed)
    }

    /// Where reading has come to.
    pub fn place(&self) -> usize {
        self.at
    }

    /// A variable symbol with the subscripts that belong to it.
    fn reference(&mut self) -> Read<Reference> {
        if self.next() != Some(b'&') {
            return Err(IllFormed);
        }
        let Ampersand::Symbol(name) = ampersand(&self.field.bytes[..self.end], self.at) else {
            return Err(IllFormed);
        };
        let kind = (self.kind)(name).ok_or(IllFormed)?;
        self.at += 1 + name.len();
        let mut subscripts = Vec::new();
        if self.next() == Some(b'(') {
            // L5: "A `(` after a parameter always begins a subscript"; 01: "A `(` directly after a SET symbol, &SYSNDX or &SYSECT
            // is fault 4"
            if !matches!(kind, Kind::Parameter | Kind::Syslist) {
                return Err(IllFormed);
            }
            self.opens()?;
            subscripts.push(self.arithmetic()?);
            if kind == Kind::Syslist && self.pass(b',') {
                subscripts.push(self.arithmetic()?);
            }
            self.closes()?;
        }
        Ok(Reference { name: name.to_vec(), kind, subscripts })
    }

    /// A reference that stands for a text: "&SYSLIST without a subscript except after N'" is fault 4.
    fn reference_in_text(&mut self) -> Read<Reference> {
        let reference = self.reference()?;
        let bare_syslist = reference.kind == Kind::Syslist && reference.subscripts.is_empty();
        if bare_syslist { Err(IllFormed) } else { Ok(reference) }
    }

    /// One piece of a text: a byte, a pair of `&`, or a reference with the period that is removed after it.
    fn piece(&mut self, byte: u8, text: &mut Text) -> Read<()> {
        if byte != b'&' {
            text.push(Piece::Byte(byte));
            self.at += 1;
        } else if ampersand(&self.field.bytes[..self.end], self.at) == Ampersand::Pair {
            text.extend([Piece::Byte(b'&'), Piece::Byte(b'&')]);
            self.at += 2;
        } else {
            text.push(Piece::Reference(self.reference_in_text()?));
            // "In text a period directly after a reference is removed."
            self.pass(b'.');
        }
        Ok(())
    }

    /// All that is left, as text. L5: "Text is read from the left".
    pub fn text(&mut self) -> Read<Text> {
        let mut text = Vec::new();
        while self.at < self.end {
            self.piece(self.field.bytes[self.at], &mut text)?;
        }
        Ok(text)
    }

    /// "`+ - * /`, the last two binding tighter, left to right, parentheses, no sign in front"
    pub fn arithmetic(&mut self) -> Read<Arithmetic> {
        let mut left = self.product()?;
        while let Some(sign @ (b'+' | b'-')) = self.next() {
            self.at += 1;
            left = Arithmetic::Operation(Box::new(left), sign, Box::new(self.product()?));
        }
        Ok(left)
    }

    fn product(&mut self) -> Read<Arithmetic> {
        let mut left = self.term()?;
        while let Some(sign @ (b'*' | b'/')) = self.next() {
            self.at += 1;
            left = Arithmetic::Operation(Box::new(left), sign, Box::new(self.term()?));
        }
        Ok(left)
    }

    /// "Terms: decimal numbers in range (else 4), SETA symbols, K', N', &SYSNDX, and parameter, &SYSLIST or SETC references"
    fn term(&mut self) -> Read<Arithmetic> {
        match self.next() {
            Some(b'(') => {
                self.opens()?;
                let inner = self.arithmetic()?;
                self.closes()?;
                Ok(inner)
            }
            Some(b'0'..=b'9') => self.number(),
            Some(b'&') => {
                let reference = self.reference_in_text()?;
                match reference.kind {
                    // V1: "SETB symbols, &SYSECT, L' and T' are none: 4"
                    Kind::Set(Set::B) | Kind::Sysect => Err(IllFormed),
                    _ => Ok(Arithmetic::Reference(reference)),
                }
            }
            Some(b'K') => {
                let reference = self.attribute(b'K')?;
                match reference.kind {
                    // V2: "K' takes a parameter, &SYSLIST(..), a SETC symbol, &SYSNDX or &SYSECT"
                    Kind::Set(Set::A | Set::B) => Err(IllFormed),
                    Kind::Syslist if reference.subscripts.is_empty() => Err(IllFormed),
                    _ => Ok(Arithmetic::Count(reference)),
                }
            }
            Some(b'N') => {
                let reference = self.attribute(b'N')?;
                // V2: "N' a parameter, &SYSLIST(..) or &SYSLIST"
                match reference.kind {
                    Kind::Parameter | Kind::Syslist => Ok(Arithmetic::Entries(reference)),
                    _ => Err(IllFormed),
                }
            }
            _ => Err(IllFormed),
        }
    }

    /// T18: "A decimal number over 2147483647 is 4; leading zeros are allowed"; V4: "`1EQ 1` is 4".
    fn number(&mut self) -> Read<Arithmetic> {
        let end = run(&self.field.bytes[..self.end], self.at, |b| b.is_ascii_digit());
        let digits = &self.field.bytes[self.at..end];
        self.at = end;
        let value = digits.iter().fold(0i64, |n, d| n.saturating_mul(10).saturating_add(i64::from(d - b'0')));
        let glued = self.next().is_some_and(letter);
        if value > i64::from(i32::MAX) || glued { Err(IllFormed) } else { Ok(Arithmetic::Number(value)) }
    }

    /// L3: "K' N' T' are terms only where their apostrophe is a mark."
    fn attribute(&mut self, which: u8) -> Read<Reference> {
        self.expect(which)?;
        if !self.next_is(Role::Mark) {
            return Err(IllFormed);
        }
        self.at += 1;
        self.reference()
    }

    /// A SETC expression.
    pub fn setc(&mut self) -> Read<Setc> {
        if self.next() == Some(b'T') {
            let reference = self.attribute(b'T')?;
            // V2: "T' a parameter or &SYSLIST(..)"
            return match reference.kind {
                Kind::Parameter => Ok(Setc::Type(reference)),
                Kind::Syslist if !reference.subscripts.is_empty() => Ok(Setc::Type(reference)),
                _ => Err(IllFormed),
            };
        }
        let mut joined = vec![self.string()?];
        while self.pass(b'.') {
            joined.push(self.string()?);
        }
        Ok(Setc::Joined(joined))
    }

    /// A quoted string with its optional `(start,count)`.
    fn string(&mut self) -> Read<(Text, Option<(Arithmetic, Arithmetic)>)> {
        if !self.next_is(Role::Quote) {
            return Err(IllFormed);
        }
        self.at += 1;
        let mut text = Vec::new();
        loop {
            if self.at >= self.end {
                return Err(IllFormed);
            } else if self.next_is(Role::Quoted) {
                self.piece(self.field.bytes[self.at], &mut text)?;
            } else if self.field.roles.get(self.at + 1) == Some(&Role::Quote) && self.at + 1 < self.end {
                text.push(Piece::Byte(b'\'')); // "`''` is one apostrophe"
                self.at += 2;
            } else {
                self.at += 1;
                break;
            }
        }
        if self.next() != Some(b'(') {
            return Ok((text, None));
        }
        self.opens()?;
        let start = self.arithmetic()?;
        self.expect(b',')?;
        let count = self.arithmetic()?;
        self.closes()?;
        Ok((text, Some((start, count))))
    }

    /// "SETB and AIF: `(..)` over SETB symbols, 0, 1, comparisons EQ NE LT LE GT GE, parentheses"
    pub fn parenthesised(&mut self) -> Read<Condition> {
        self.opens()?;
        let condition = self.condition()?;
        self.closes()?;
        Ok(condition)
    }

    /// "NOT before AND before OR"
    fn condition(&mut self) -> Read<Condition> {
        let mut left = self.conjunction()?;
        while self.pass_word(b"OR") {
            left = Condition::Or(Box::new(left), Box::new(self.conjunction()?));
        }
        Ok(left)
    }

    fn conjunction(&mut self) -> Read<Condition> {
        let mut left = self.negation()?;
        while self.pass_word(b"AND") {
            left = Condition::And(Box::new(left), Box::new(self.negation()?));
        }
        Ok(left)
    }

    /// V5: "NOT stands before an element"
    fn negation(&mut self) -> Read<Condition> {
        self.spaces();
        let not = self.pass_word(b"NOT");
        let element = self.element()?;
        Ok(if not { Condition::Not(Box::new(element)) } else { element })
    }

    /// A SETB symbol, 0, 1, a comparison or a parenthesised condition, with the spaces around it.
    fn element(&mut self) -> Read<Condition> {
        self.spaces();
        let from = self.at;
        let element = if self.next() == Some(b'(') {
            self.parenthesised()?
        } else if self.next_is(Role::Quote) || (self.next() == Some(b'T') && self.word() == b"T") {
            let left = self.setc()?;
            self.spaces();
            let relation = self.relation().ok_or(IllFormed)?;
            self.spaces();
            Condition::Strings(left, relation, self.setc()?)
        } else if self.setb_symbol() {
            Condition::Symbol(self.reference()?)
        } else {
            let left = self.arithmetic()?;
            let written = &self.field.bytes[from..self.at];
            self.spaces();
            match (self.relation(), written) {
                (None, b"0") => Condition::Constant(false),
                (None, b"1") => Condition::Constant(true),
                (None, _) => return Err(IllFormed),
                (Some(relation), _) => {
                    self.spaces();
                    // "An arithmetic side does not begin with `(`."
                    if self.next() == Some(b'(') {
                        return Err(IllFormed);
                    }
                    Condition::Numbers(left, relation, self.arithmetic()?)
                }
            }
        };
        self.spaces();
        Ok(element)
    }

    fn setb_symbol(&self) -> bool {
        self.next() == Some(b'&')
            && match ampersand(&self.field.bytes[..self.end], self.at) {
                Ampersand::Symbol(name) => (self.kind)(name) == Some(Kind::Set(Set::B)),
                _ => false,
            }
    }

    /// V4: "A word (AND OR NOT EQ NE LT LE GT GE) is a whole run of letters and digits".
    fn word(&self) -> &'a [u8] {
        let bytes = &self.field.bytes[..self.end];
        if self.next().is_some() { &bytes[self.at..run(bytes, self.at, letter_or_digit)] } else { b"" }
    }

    fn pass_word(&mut self, word: &[u8]) -> bool {
        let there = self.word() == word;
        self.at += if there { word.len() } else { 0 };
        there
    }

    fn relation(&mut self) -> Option<Relation> {
        let relation = match self.word() {
            b"EQ" => Relation::Eq,
            b"NE" => Relation::Ne,
            b"LT" => Relation::Lt,
            b"LE" => Relation::Le,
            b"GT" => Relation::Gt,
            b"GE" => Relation::Ge,
            _ => return None,
        };
        self.at += 2;
        Some(relation)
    }
}
