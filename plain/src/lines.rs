//! 01, "Lines and fields".

/// "Lines have 0 to 71 bytes"
pub const LINE_LIMIT: usize = 71;
/// "A variable symbol is `&`, a letter, then up to 6 letters or digits"
pub const NAME_LIMIT: usize = 7;

/// "from A-Z, 0-9, space and `$ # @ _ + - * = , . ( ) / ' &`"
pub fn in_set(byte: u8) -> bool {
    matches!(byte, b'A'..=b'Z' | b'0'..=b'9' | b' ')
        || matches!(byte, b'$' | b'#' | b'@' | b'_' | b'+' | b'-' | b'*' | b'=')
        || matches!(byte, b',' | b'.' | b'(' | b')' | b'/' | b'\'' | b'&')
}

/// "A letter is A-Z, `$ # @ _`."
pub fn letter(byte: u8) -> bool {
    matches!(byte, b'A'..=b'Z' | b'$' | b'#' | b'@' | b'_')
}

pub fn letter_or_digit(byte: u8) -> bool {
    letter(byte) || byte.is_ascii_digit()
}

/// "A line ends at a newline; last bytes without one are a line too; an empty file has none."
pub fn lines(file: &[u8]) -> Vec<&[u8]> {
    let mut lines: Vec<&[u8]> = file.split(|&b| b == b'\n').collect();
    if lines.last().is_some_and(|last| last.is_empty()) {
        lines.pop();
    }
    lines
}

/// Refusal 1: "byte outside the set, or line over 71"
pub fn ill_written(line: &[u8]) -> bool {
    line.len() > LINE_LIMIT || !line.iter().all(|&b| in_set(b))
}

/// "`*` in column 1 is a remark, copied with no replacement."
pub fn is_copied_remark(line: &[u8]) -> bool {
    line.starts_with(b"*")
}

/// "`.*` is a remark, dropped in a definition, copied in open code."
pub fn is_remark(line: &[u8]) -> bool {
    is_copied_remark(line) || line.starts_with(b".*")
}

/// What a byte of a field is. L3: "What an apostrophe is, is decided once, for the field that it stands in".
#[derive(Clone, Copy, PartialEq, Eq, Debug)]
pub enum Role {
    /// outside quotes, and no apostrophe with a meaning
    Text,
    /// an apostrophe that is an attribute mark
    Mark,
    /// an apostrophe that opens or closes a quote
    Quote,
    /// inside quotes
    Quoted,
}

/// A field's bytes, and what each of them is.
#[derive(Clone, Debug)]
pub struct Field<'a> {
    pub bytes: &'a [u8],
    pub roles: Vec<Role>,
}

impl<'a> Field<'a> {
    /// An operand (or a value read as one, V8): "A quote left open runs to the line's end."
    pub fn quoted(bytes: &'a [u8]) -> Self {
        let mut inside = false;
        let roles = (0..bytes.len())
            .map(|at| match (bytes[at], inside) {
                (b'\'', true) => {
                    inside = false; // L4: "Inside quotes every apostrophe closes"
                    Role::Quote
                }
                (b'\'', false) if is_mark(bytes, at) => Role::Mark,
                (b'\'', false) => {
                    inside = true;
                    Role::Quote
                }
                (_, true) => Role::Quoted,
                (_, false) => Role::Text,
            })
            .collect();
        Field { bytes, roles }
    }

    /// L3: "Name and operation fields have no quotes: there every apostrophe is outside them".
    pub fn unquoted(bytes: &'a [u8]) -> Self {
        let role = |at: usize| if bytes[at] == b'\'' && is_mark(bytes, at) { Role::Mark } else { Role::Text };
        Field { bytes, roles: (0..bytes.len()).map(role).collect() }
    }

    /// The byte at a place, if it stands outside quotes.
    pub fn outside(&self, at: usize) -> Option<u8> {
        (self.roles[at] == Role::Text).then(|| self.bytes[at])
    }

    /// Whether quotes and parentheses pair in a part of the field.
    pub fn pairs(&self, from: usize, to: usize) -> bool {
        let mut open = 0usize;
        for at in from..to {
            match self.outside(at) {
                Some(b'(') => open += 1,
                Some(b')') if open == 0 => return false,
                Some(b')') => open -= 1,
                _ => {}
            }
        }
        open == 0 && self.roles[from..to].iter().filter(|&&r| r == Role::Quote).count() % 2 == 0
    }

    /// The places in a part of the field where `byte` stands outside quotes and parentheses (a `)` with none open closes nothing).
    pub fn bare(&self, byte: u8, from: usize, to: usize) -> Vec<usize> {
        let mut open = 0usize;
        let mut found = Vec::new();
        for at in from..to {
            match self.outside(at) {
                Some(b'(') => open += 1,
                Some(b')') => open = open.saturating_sub(1),
                Some(b) if b == byte && open == 0 => found.push(at),
                _ => {}
            }
        }
        found
    }

    /// The field divided at commas outside quotes and parentheses: where each part starts and ends. An empty field has none.
    pub fn parts(&self) -> Vec<(usize, usize)> {
        if self.bytes.is_empty() {
            return Vec::new();
        }
        let mut parts = Vec::new();
        let mut from = 0;
        for comma in self.bare(b',', 0, self.bytes.len()) {
            parts.push((from, comma));
            from = comma + 1;
        }
        parts.push((from, self.bytes.len()));
        parts
    }
}

/// "An apostrophe outside quotes is an attribute mark, no quote, if a letter or `&` follows it, one of K N T L precedes it,
/// and before that letter stands the operand's start or a byte that is no letter, digit or `&`."
fn is_mark(bytes: &[u8], at: usize) -> bool {
    let follows = bytes.get(at + 1).is_some_and(|&b| letter(b) || b == b'&');
    let precedes = at >= 1 && matches!(bytes[at - 1], b'K' | b'N' | b'T' | b'L');
    let free = at < 2 || !(letter_or_digit(bytes[at - 2]) || bytes[at - 2] == b'&');
    follows && precedes && free
}

/// A statement's fields; the remarks field is left out.
#[derive(Clone, Debug)]
pub struct Fields<'a> {
    pub name: Field<'a>,
    pub operation: Field<'a>,
    pub operand: Field<'a>,
}

/// The fields of a line; none where it is a remark (L1).
pub fn fields(line: &[u8]) -> Option<Fields<'_>> {
    if is_remark(line) {
        return None;
    }
    // "Name: column 1 up to a space. Operation: the next run of non-spaces."
    let name_end = run(line, 0, |b| b != b' ');
    let operation_at = run(line, name_end, |b| b == b' ');
    let operation_end = run(line, operation_at, |b| b != b' ');
    let operation = &line[operation_at..operation_end];
    // "Operand: from the next non-space to a space outside quotes; for AIF and SETB, parentheses also hold spaces."
    let operand_at = run(line, operation_end, |b| b == b' ');
    let holds = operation == b"AIF" || operation == b"SETB";
    let rest = Field::quoted(&line[operand_at..]);
    let spaces = if holds { rest.bare(b' ', 0, rest.bytes.len()) } else { Vec::new() };
    let first_space = || (0..rest.bytes.len()).find(|&at| rest.outside(at) == Some(b' '));
    let operand_len = if holds { spaces.first().copied() } else { first_space() }.unwrap_or(rest.bytes.len());
    Some(Fields {
        name: Field::unquoted(&line[..name_end]),
        operation: Field::unquoted(operation),
        operand: Field::quoted(&rest.bytes[..operand_len]),
    })
}

/// Where a run of bytes that pass the test ends.
pub fn run(bytes: &[u8], from: usize, test: impl Fn(u8) -> bool) -> usize {
    (from..bytes.len()).find(|&at| !test(bytes[at])).unwrap_or(bytes.len())
}

/// What an ampersand starts. "In a run of ampersands, pairs from the left are text and stay two; one left over must start a
/// variable symbol."
#[derive(Clone, Copy, PartialEq, Eq, Debug)]
pub enum Ampersand<'a> {
    Pair,
    /// the letters and digits after it, all that stand there: more than 7 are fault 3
    Symbol(&'a [u8]),
    Lone,
}

/// What the `&` at a place starts, in bytes read from the left.
pub fn ampersand(bytes: &[u8], at: usize) -> Ampersand<'_> {
    match bytes.get(at + 1) {
        Some(b'&') => Ampersand::Pair,
        Some(&b) if letter(b) => Ampersand::Symbol(&bytes[at + 1..run(bytes, at + 1, letter_or_digit)]),
        _ => Ampersand::Lone,
    }
}

/// All variable symbols that stand in a text, in their order, however ill-formed the rest is.
pub fn variable_symbols(bytes: &[u8]) -> Vec<&[u8]> {
    let mut symbols = Vec::new();
    let mut at = 0;
    while at < bytes.len() {
        if bytes[at] != b'&' {
            at += 1;
            continue;
        }
        match ampersand(bytes, at) {
            Ampersand::Pair => at += 2,
            Ampersand::Lone => at += 1,
            Ampersand::Symbol(name) => {
                symbols.push(name);
                at += 1 + name.len();
            }
        }
    }
    symbols
}

/// The symbol, if the text is exactly one variable symbol.
pub fn exactly_one_symbol(bytes: &[u8]) -> Option<&[u8]> {
    symbol_at_start(bytes).filter(|name| name.len() + 1 == bytes.len())
}

/// The variable symbol that a text starts with.
pub fn symbol_at_start(bytes: &[u8]) -> Option<&[u8]> {
    match (bytes.first(), ampersand(bytes, 0)) {
        (Some(b'&'), Ampersand::Symbol(name)) => Some(name),
        _ => None,
    }
}

/// Some run of ampersands in the text is odd.
pub fn has_odd_run(bytes: &[u8]) -> bool {
    let mut at = 0;
    while at < bytes.len() {
        let end = run(bytes, at, |b| b == b'&');
        if (end - at) % 2 == 1 {
            return true;
        }
        at = end + 1;
    }
    false
}

/// "A sequence symbol has `.` for `&`": its name, where the whole field is one.
pub fn sequence_symbol(name_field: &[u8]) -> Option<&[u8]> {
    let name = sequence_start(name_field)?;
    (name.len() <= NAME_LIMIT && name.len() + 1 == name_field.len()).then_some(name)
}

/// The letters and digits after a `.` and a letter at the text's start.
pub fn sequence_start(bytes: &[u8]) -> Option<&[u8]> {
    match bytes {
        [b'.', first, ..] if letter(*first) => Some(&bytes[1..run(bytes, 1, letter_or_digit)]),
        _ => None,
    }
}
