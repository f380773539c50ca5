//! Accepted libraries whose expansion should end well. Every parameter and SET symbol has a kind of value that all lines keep to, so that bounds of each expression are known when it is written.

use super::*;

/// What the values of a parameter look like.
#[derive(Clone, Copy, PartialEq, Eq)]
pub enum Shape {
    /// The name parameter.
    Name,
    /// 1 to 3: how often a macro still calls itself.
    Depth,
    /// Up to six digits, at most 9999.
    Number,
    Word,
    List,
    /// A sublist whose first two entries are numbers.
    Numbers,
    /// A plain operation.
    Operation,
    Free,
}

impl Shape {
    /// Least and greatest length of a value.
    fn lengths(self) -> (usize, usize) {
        match self {
            Shape::Name => (0, 10),
            Shape::Depth => (1, 1),
            Shape::Number => (1, 6),
            Shape::Word => (0, 8),
            Shape::List => (0, 20),
            Shape::Numbers => (5, 20),
            Shape::Operation => (1, 5),
            Shape::Free => (0, 14),
        }
    }
}

/// What the values of a SET symbol look like.
#[derive(Clone, Copy, PartialEq, Eq)]
enum Class {
    /// SETA, -9999 to 9999.
    Small,
    /// SETA, 0 to 30; written by its loop alone.
    Counter,
    /// SETA, any value.
    Edge,
    Bit,
    /// SETC, up to 8 bytes.
    Short,
    /// SETC, one to four digits once it is set at the macro's start.
    Digits,
    /// SETC, a plain operation once it is set at the macro's start.
    Mnemonic,
    /// SETC, up to 255 bytes.
    Long,
}

const CLASSES: [Class; 8] =
    [Class::Small, Class::Counter, Class::Edge, Class::Bit, Class::Short, Class::Digits, Class::Mnemonic, Class::Long];

impl Class {
    fn kind(self) -> char {
        match self {
            Class::Small | Class::Counter | Class::Edge => 'A',
            Class::Bit => 'B',
            _ => 'C',
        }
    }

    /// Least and greatest length in text.
    fn lengths(self) -> (usize, usize) {
        match self {
            Class::Small => (1, 4),
            Class::Counter => (1, 2),
            Class::Edge => (1, 10),
            Class::Bit => (1, 1),
            Class::Short => (0, 8),
            Class::Digits => (1, 4),
            Class::Mnemonic => (1, 5),
            Class::Long => (0, STRING_LIMIT),
        }
    }

    fn span(self) -> Span {
        match self {
            Class::Small => Span { low: -9999, high: 9999 },
            Class::Counter => Span { low: 0, high: 30 },
            Class::Digits => Span { low: 0, high: 9999 },
            _ => Span { low: SMALLEST, high: LARGEST },
        }
    }
}

#[derive(Clone)]
pub struct Parameter {
    pub symbol: String,
    pub shape: Shape,
    default: String,
}

#[derive(Clone)]
struct Symbol {
    name: String,
    class: Class,
}

/// A macro as its callers see it, and its lines.
#[derive(Clone)]
pub struct Macro {
    pub name: String,
    pub label: Option<String>,
    pub positionals: Vec<Parameter>,
    pub keywords: Vec<Parameter>,
    /// Levels that a call of it needs.
    height: usize,
    /// At least the steps that a call of it takes.
    cost: usize,
    pub lines: Vec<String>,
}

/// The values that an arithmetic expression may take.
#[derive(Clone, Copy)]
struct Span {
    low: i64,
    high: i64,
}

impl Span {
    fn within(self, low: i64, high: i64) -> bool {
        low <= self.low && self.high <= high
    }

    fn of(values: &[i64]) -> Span {
        Span { low: values.iter().copied().min().unwrap_or(0), high: values.iter().copied().max().unwrap_or(0) }
    }

    /// Bounds of the operator's results.
    fn apply(self, operator: char, other: Span) -> Span {
        let ends = |f: fn(i64, i64) -> i64| {
            [f(self.low, other.low), f(self.low, other.high), f(self.high, other.low), f(self.high, other.high)]
        };
        match operator {
            '+' => Span::of(&ends(|a, b| a + b)),
            '-' => Span::of(&ends(|a, b| a - b)),
            '*' => Span::of(&ends(|a, b| a * b)),
            _ => {
                // A quotient is no larger than its dividend; with divisors of one sign away from 0 the ends decide.
                if other.low > 0 || other.high < 0 {
                    Span::of(&ends(|a, b| a.checked_div(b).unwrap_or(0)))
                } else {
                    let most = self.low.abs().max(self.high.abs());
                    Span { low: -most, high: most }
                }
            }
        }
    }
}

/// An arithmetic expression and its bounds.
struct Number {
    text: String,
    span: Span,
}

/// Text and the bounds of its length after replacement.
struct Text {
    text: String,
    least: usize,
    most: usize,
}

impl Text {
    fn plain(text: &str) -> Text {
        Text { text: text.to_string(), least: text.len(), most: text.len() }
    }
}

/// Joins a piece to text, with a period where the last symbol would run on into it.
fn join(out: &mut String, piece: &str) {
    let first = piece.bytes().next().unwrap_or(b' ');
    if ends_in_reference(out) && (first.is_ascii_alphanumeric() || b"$#@_(.".contains(&first)) {
        out.push('.');
    }
    // Behind a subscript a period would be dropped, and the text be shorter than it is taken to be.
    match piece.strip_prefix('.') {
        Some(rest) if out.ends_with(')') => out.extend(["_", rest]),
        _ => out.push_str(piece),
    }
}

/// Does the text end in a variable symbol (no pair of ampersands before its name)?
fn ends_in_reference(text: &str) -> bool {
    let name = text.bytes().rev().take_while(|b| b.is_ascii_alphanumeric() || b"$#@_".contains(b)).count();
    let run = text.bytes().rev().skip(name).take_while(|b| *b == b'&').count();
    name > 0 && run % 2 == 1
}

/// A macro while it is written.
struct Writer<'r> {
    rng: &'r mut Random,
    callees: &'r [Macro],
    made: Macro,
    /// All of its parameters, the name parameter first.
    parameters: Vec<Parameter>,
    symbols: Vec<Symbol>,
    lines: Vec<String>,
    labels: Vec<String>,
    /// A sequence symbol that the next line should have.
    pending: Option<String>,
    /// Counters of the loops that are open.
    busy: Vec<String>,
    /// How often the line written now may be reached in one call.
    weight: usize,
    cost: usize,
    branches: usize,
    height: usize,
    /// Inside quotes no attribute mark may be written.
    in_string: bool,
    /// How many of a hundred bounds are let go, for refusals at run time.
    bold: usize,
}

impl<'r> Writer<'r> {
    fn lets_go(&mut self) -> bool {
        self.rng.chance(self.bold)
    }

    // ------------------------------------------------ symbols

    fn of_class(&mut self, classes: &[Class]) -> Option<Symbol> {
        let fitting: Vec<&Symbol> = self.symbols.iter().filter(|s| classes.contains(&s.class)).collect();
        self.rng.choose(&fitting).map(|symbol| (*symbol).clone())
    }

    fn of_shape(&mut self, shapes: &[Shape]) -> Option<Parameter> {
        let fitting: Vec<&Parameter> = self.parameters.iter().filter(|p| shapes.contains(&p.shape)).collect();
        self.rng.choose(&fitting).map(|parameter| (*parameter).clone())
    }

    // ------------------------------------------------ arithmetic

    fn literal(&mut self) -> Number {
        let value = match self.rng.below(20) {
            0 => LARGEST,
            1..=2 => self.rng.below(10_000) as i64,
            _ => self.rng.below(13) as i64,
        };
        let zeros = if self.rng.chance(8) { "00" } else { "" };
        Number { text: format!("{zeros}{value}"), span: Span { low: value, high: value } }
    }

    fn atom(&mut self, nest: usize) -> Number {
        if self.lets_go() {
            let text = self
                .of_class(&[Class::Short, Class::Long])
                .map(|s| s.name)
                .or_else(|| self.of_shape(&[Shape::Free, Shape::Word, Shape::Name]).map(|p| p.symbol));
            return Number { text: text.unwrap_or_else(|| "2147483647".to_string()), span: Span { low: 0, high: 9 } };
        }
        let made = match self.rng.below(12) {
            0..=1 => None,
            2..=4 => self
                .of_class(&[Class::Small, Class::Counter, Class::Edge, Class::Small])
                .map(|s| Number { span: s.class.span(), text: s.name }),
            5..=6 if !self.in_string => self.attribute(nest),
            7 => Some(Number { text: "&SYSNDX".to_string(), span: Span { low: 1, high: 9999 } }),
            8 => self.of_class(&[Class::Digits]).map(|s| Number { span: s.class.span(), text: s.name }),
            _ => self.numeric_operand(nest),
        };
        match made {
            Some(number) => number,
            None => self.literal(),
        }
    }

    /// A parameter, entry or &SYSLIST operand whose value is a number.
    fn numeric_operand(&mut self, nest: usize) -> Option<Number> {
        let wide = Span { low: 0, high: 9999 };
        if nest > 0 && self.rng.chance(30) {
            let places: Vec<usize> =
                (0..self.made.positionals.len()).filter(|at| self.made.positionals[*at].shape == Shape::Number).collect();
            let at = *self.rng.choose(&places)? + 1;
            let entry = if self.rng.chance(25) { ",1" } else { "" };
            return Some(Number { text: format!("&SYSLIST({at}{entry})"), span: wide });
        }
        let parameter = self.of_shape(&[Shape::Number, Shape::Depth, Shape::Numbers])?;
        match parameter.shape {
            Shape::Depth => Some(Number { text: parameter.symbol, span: Span { low: 1, high: 3 } }),
            Shape::Number => Some(Number { text: parameter.symbol, span: wide }),
            _ if nest > 0 => Some(Number { text: format!("{}({})", parameter.symbol, self.rng.between(1, 2)), span: wide }),
            _ => None,
        }
    }

    /// K' or N' of something.
    fn attribute(&mut self, nest: usize) -> Option<Number> {
        if self.rng.chance(12) {
            return Some(Number { text: "N'&SYSLIST".to_string(), span: Span { low: 0, high: 24 } });
        }
        if self.rng.chance(30) {
            let symbol = self.of_class(&[Class::Short, Class::Digits, Class::Mnemonic, Class::Long]);
            let (text, (least, most)) = match (symbol, self.rng.below(4)) {
                (_, 0) => ("&SYSNDX".to_string(), (4, 4)),
                (Some(symbol), 1..=2) => (symbol.name, (0, symbol.class.lengths().1)),
                _ => ("&SYSECT".to_string(), (0, 10)),
            };
            return Some(Number { text: format!("K'{text}"), span: Span { low: least, high: most as i64 } });
        }
        let operand = self.operand_reference(nest)?;
        if self.rng.chance(50) {
            Some(Number {
                text: format!("K'{}", operand.text),
                span: Span { low: operand.least as i64, high: operand.most as i64 },
            })
        } else {
            Some(Number {
                text: format!("N'{}", operand.text),
                span: Span { low: i64::from(operand.least > 0), high: operand.most.max(1) as i64 },
            })
        }
    }

    /// A parameter, an &SYSLIST operand, or an entry of either.
    fn operand_reference(&mut self, nest: usize) -> Option<Text> {
        if nest > 0 && (self.parameters.is_empty() || self.rng.chance(30)) {
            let at = self.subscript(0, nest - 1);
            let entry = if self.rng.chance(40) { format!(",{}", self.subscript(1, nest - 1)) } else { String::new() };
            return Some(Text { text: format!("&SYSLIST({at}{entry})"), least: 0, most: 20 });
        }
        let parameter = self.rng.choose(&self.parameters)?.clone();
        let (least, most) = parameter.shape.lengths();
        if nest > 0 && self.rng.chance(40) {
            let entry = self.subscript(1, nest - 1);
            return Some(Text { text: format!("{}({entry})", parameter.symbol), least: 0, most });
        }
        Some(Text { text: parameter.symbol, least, most })
    }

    fn subscript(&mut self, low: i64, nest: usize) -> String {
        if self.rng.chance(60) {
            return (low + self.rng.below(4) as i64).to_string();
        }
        // Little room, so deep nesting would mostly be thrown away.
        let nest = if self.rng.chance(10) { nest } else { nest.min(2) };
        self.number_in(low, LARGEST, nest, 14).text
    }

    fn factor(&mut self, nest: usize) -> Number {
        if nest > 0 && self.rng.chance(18) {
            // Now and then as many pairs as are left.
            let pairs = if self.rng.chance(6) { nest } else { 1 };
            let inner = self.sum(nest - pairs);
            return Number { text: format!("{}{}{}", "(".repeat(pairs), inner.text, ")".repeat(pairs)), span: inner.span };
        }
        self.atom(nest)
    }

    /// Goes on with operators while every result is sure to be in range.
    fn chain(&mut self, nest: usize, operators: [char; 2], part: fn(&mut Self, usize) -> Number) -> Number {
        let mut whole = part(self, nest);
        while self.rng.chance(36) {
            let operator = if self.rng.chance(50) { operators[0] } else { operators[1] };
            let next = part(self, nest);
            let span = whole.span.apply(operator, next.span);
            if !span.within(SMALLEST, LARGEST) && !self.lets_go() {
                break;
            }
            let span = Span { low: span.low.clamp(SMALLEST, LARGEST), high: span.high.clamp(SMALLEST, LARGEST) };
            whole = Number { text: format!("{}{operator}{}", whole.text, next.text), span };
        }
        whole
    }

    fn product(&mut self, nest: usize) -> Number {
        self.chain(nest, ['*', '/'], Self::factor)
    }

    fn sum(&mut self, nest: usize) -> Number {
        self.chain(nest, ['+', '-'], Self::product)
    }

    /// An expression with values from `low` to `high` in at most `room` bytes.
    fn number_in(&mut self, low: i64, high: i64, nest: usize, room: usize) -> Number {
        for _ in 0..8 {
            let made = self.sum(nest);
            if made.text.len() <= room && (made.span.within(low, high) || self.lets_go()) {
                return made;
            }
        }
        let value = low.max(0) + self.rng.below((high - low.max(0)).clamp(0, 3) as usize + 1) as i64;
        Number { text: value.to_string(), span: Span { low: value, high: value } }
    }

    // ------------------------------------------------ strings

    /// A reference as it stands in text.
    fn reference(&mut self, nest: usize) -> Text {
        match self.rng.below(10) {
            0 => Text { text: "&SYSNDX".to_string(), least: 4, most: 4 },
            1 => Text { text: "&SYSECT".to_string(), least: 0, most: 10 },
            2..=5 => match self.operand_reference(nest.min(2)) {
                Some(text) => text,
                None => Text::plain("P"),
            },
            // The last class has long values, which few lines have room for.
            _ => match self.of_class(if self.bold > 0 { &CLASSES } else { &CLASSES[..7] }) {
                Some(symbol) => {
                    let (least, most) = symbol.class.lengths();
                    Text { text: symbol.name, least, most }
                }
                None => Text::plain("S"),
            },
        }
    }

    /// Text between quotes of at most `most` bytes, written in at most `room`.
    fn quoted(&mut self, most: usize, nest: usize, room: usize) -> Text {
        self.in_string = true;
        let mut whole = Text::plain("");
        for _ in 0..self.rng.below(4) {
            let piece = match self.rng.below(8) {
                0..=3 => self.reference(nest),
                4 => Text { text: "''".to_string(), least: 1, most: 1 },
                _ => Text::plain(self.rng.pick(&[
                    "A", "AB", "X1", "-", ".", "0", "12", " ", ",", "(", ")", "&&", "=", "K", "ABCDEFG", "R1", "*", "/",
                    "(A,B)",
                ])),
            };
            let fits = whole.most + piece.most <= most || self.lets_go();
            if fits && whole.text.len() + piece.text.len() + 2 < room {
                join(&mut whole.text, &piece.text);
                if self.rng.chance(15) && piece.text.starts_with('&') && piece.text != "&&" {
                    whole.text.push('.');
                }
                whole.least += piece.least;
                whole.most += piece.most;
            }
        }
        self.in_string = false;
        Text { text: format!("'{}'", whole.text), least: whole.least, most: whole.most }
    }

    /// One string, perhaps with a substring of it.
    fn string(&mut self, most: usize, nest: usize, room: usize) -> Text {
        if nest == 0 || room < 14 || !self.rng.chance(25) {
            return self.quoted(most, nest, room);
        }
        let whole = self.quoted(STRING_LIMIT, nest, room - 8);
        let left = room.saturating_sub(whole.text.len() + 3);
        if left < 4 || whole.least == 0 && !self.lets_go() {
            let count = most.min(3);
            return Text { text: format!("'ABCDE'(2,{count})"), least: count, most: count };
        }
        let start = self.number_in(1, whole.least as i64, nest - 1, left / 2);
        let mut count = self.number_in(0, LARGEST, nest - 1, left - left / 2);
        if count.span.high.min(whole.most as i64) > most as i64 {
            count = self.number_in(0, most as i64, nest - 1, left - left / 2);
        }
        Text { text: format!("{}({},{})", whole.text, start.text, count.text), least: 0, most: most.min(whole.most) }
    }

    /// A SETC expression.
    fn characters(&mut self, most: usize, nest: usize, room: usize) -> Text {
        let mut whole = self.string(most, nest, room);
        while self.rng.chance(25) && whole.text.len() + 10 < room {
            let next = self.string(most.saturating_sub(whole.most), nest, room - whole.text.len() - 1);
            if whole.most + next.most > most || whole.text.len() + next.text.len() + 1 > room {
                break;
            }
            whole = Text {
                text: format!("{}.{}", whole.text, next.text),
                least: whole.least + next.least,
                most: whole.most + next.most,
            };
        }
        whole
    }

    // ------------------------------------------------ conditions

    fn side(&mut self, nest: usize, room: usize) -> String {
        for _ in 0..4 {
            let made = self.number_in(SMALLEST, LARGEST, nest, room);
            if !made.text.starts_with('(') {
                return made.text;
            }
            if made.text.len() + 2 <= room {
                return format!("0+{}", made.text);
            }
        }
        "1".to_string()
    }

    fn comparison(&mut self, nest: usize, room: usize) -> String {
        let half = room.saturating_sub(6) / 2;
        let relation = self.rng.pick(RELATIONS);
        let gap = self.rng.pick(&[" ", " ", " ", " ", "  "]);
        if self.rng.chance(60) {
            let left = self.side(nest, half);
            let right = self.side(nest, half);
            return format!("{left}{gap}{relation}{gap}{right}");
        }
        let mut sides = [String::new(), String::new()];
        for side in &mut sides {
            *side = match (self.rng.chance(25), half) {
                (true, 12..) => match self.operand_reference(nest) {
                    Some(operand) if operand.text.len() + 2 <= half => format!("T'{}", operand.text),
                    _ => self.rng.pick(&["'U'", "'N'", "'O'"]).to_string(),
                },
                _ => self.characters(STRING_LIMIT, nest, half).text,
            };
        }
        let [left, right] = sides;
        let close = if left.ends_with('\'') && right.starts_with('\'') && self.rng.chance(15) { "" } else { gap };
        format!("{left}{close}{relation}{close}{right}")
    }

    fn element(&mut self, nest: usize, room: usize) -> String {
        match self.rng.below(10) {
            0..=2 => match self.of_class(&[Class::Bit]) {
                Some(symbol) => symbol.name,
                None => self.rng.pick(&["0", "1"]).to_string(),
            },
            3 => self.rng.pick(&["0", "1"]).to_string(),
            4..=5 if nest > 0 && room > 12 => {
                let gap = self.rng.pick(&["", "", " "]);
                format!("({gap}{}{gap})", self.condition(nest - 1, room - 4))
            }
            _ if room > 10 => self.comparison(nest, room),
            _ => "1".to_string(),
        }
    }

    fn condition(&mut self, nest: usize, room: usize) -> String {
        let mut whole = String::new();
        let parts = if room < 24 || self.rng.chance(65) { 1 } else { self.rng.between(2, 3) };
        for _ in 0..parts {
            let not = if self.rng.chance(15) { "NOT " } else { "" };
            let next = format!("{not}{}", self.element(nest, (room / parts).saturating_sub(9)));
            let word = if whole.is_empty() { "" } else { self.rng.pick(&[" AND ", " OR ", " OR ", "  AND "]) };
            if whole.len() + word.len() + next.len() > room {
                break;
            }
            whole = format!("{whole}{word}{next}");
        }
        if whole.is_empty() {
            self.rng.pick(&["0", "1"]).to_string()
        } else {
            whole
        }
    }

    /// A condition in its outer pair.
    fn whole_condition(&mut self, room: usize) -> String {
        let gap = self.rng.pick(&["", "", "", " "]);
        format!("({gap}{}{gap})", self.condition(NEST_LIMIT - 1, room - 4))
    }

    // ------------------------------------------------ lines

    fn label(&mut self) -> String {
        match self.labels.pop() {
            Some(name) => format!(".{name}"),
            None => format!(".Q{}", self.lines.len()),
        }
    }

    /// Lets the next line have the sequence symbol.
    fn place(&mut self, label: String) {
        self.settle();
        self.pending = Some(label);
    }

    /// Writes an ANOP for a sequence symbol that no line has taken.
    fn settle(&mut self) {
        if let Some(label) = self.pending.take() {
            let line = spaced(self.rng, &label, "ANOP", "");
            self.push(line);
        }
    }

    fn push(&mut self, line: String) {
        let line = remarked_if_safe(self.rng, line);
        self.lines.push(line);
        self.cost += self.weight;
    }

    /// A line that takes a waiting sequence symbol if its name field is empty.
    fn put(&mut self, name: &str, operation: &str, operand: &str) {
        let taken = if name.is_empty() { self.pending.take() } else { None };
        if taken.is_none() {
            self.settle();
        }
        let name = taken.unwrap_or_else(|| name.to_string());
        let line = spaced(self.rng, &name, operation, operand);
        self.push(line);
    }

    fn branch(&mut self, operation: &str, operand: &str) {
        self.put("", operation, operand);
        self.branches += self.weight;
    }

    fn set(&mut self) {
        let Some(symbol) = self.of_class(&[Class::Small, Class::Bit, Class::Short, Class::Digits, Class::Mnemonic]) else {
            return;
        };
        let room = 71 - 16 - symbol.name.len().saturating_sub(8);
        let deep = if self.rng.chance(15) { NEST_LIMIT } else { 3 };
        match symbol.class {
            Class::Small => {
                let number = self.number_in(-9999, 9999, deep, room);
                self.put(&symbol.name, "SETA", &number.text);
            }
            Class::Bit => {
                let condition = self.whole_condition(room);
                self.put(&symbol.name, "SETB", &condition);
            }
            Class::Short => {
                let text = match self.rng.chance(15) {
                    true => self
                        .operand_reference(deep)
                        .map(|operand| format!("T'{}", operand.text))
                        .filter(|text| text.len() <= room),
                    false => None,
                };
                let text = match text {
                    Some(text) => text,
                    None => self.characters(8, deep, room).text,
                };
                self.put(&symbol.name, "SETC", &text);
            }
            _ => self.initial(&symbol),
        }
    }

    /// Gives a symbol of a narrow class a value of it.
    fn initial(&mut self, symbol: &Symbol) {
        let text = match symbol.class {
            Class::Digits => match self.of_class(&[Class::Small]) {
                Some(small) if self.rng.chance(30) => format!("'{}'", small.name),
                _ => format!("'{}'", self.rng.below(10_000)),
            },
            _ => format!("'{}'", self.rng.pick(&["DC", "NOP", "LA", "BAL", "MNOTE"])),
        };
        self.put(&symbol.name, "SETC", &text);
    }

    /// An operand of a model statement.
    fn model_operand(&mut self, most: usize, room: usize) -> Text {
        let mut whole = Text::plain("");
        for _ in 0..self.rng.between(0, 4) {
            let piece = match self.rng.below(16) {
                0..=5 => self.reference(3),
                6 => {
                    let inner = self.quoted(most, 2, room);
                    // Directly behind a symbol, `&L` say, an apostrophe is no attribute mark.
                    let before = if ends_in_reference(&whole.text) { "" } else { self.rng.pick(&["C", "X", ",", "="]) };
                    Text { text: format!("{before}{}", inner.text), least: 0, most: inner.text.len().max(inner.most + 2) + 1 }
                }
                7 => {
                    let inner = self.reference(3);
                    let before = self.rng.pick(&[",L'", ",K'", "(T'", "=N'"]);
                    let after = if before.starts_with('(') { ")" } else { "" };
                    Text { text: format!("{before}{}{after}", inner.text), least: 0, most: inner.most + 4 }
                }
                8 => {
                    let inner = self.reference(2);
                    let before = self.rng.pick(&["=A(", "X(", "("]);
                    Text { text: format!("{before}{})", inner.text), least: 0, most: inner.most + 4 }
                }
                9 => Text::plain("&&"),
                10..=11 => Text::plain(","),
                _ => Text::plain(self.rng.pick(&[
                    "A", "X", "R1", "0", "*", "+", "-", "/", "=", "F'1'", "C'A B'", "C'IT''S'", "(1)", ".X", ".", "_", "@#$",
                    "L'X", "ABCDEFGH",
                ])),
            };
            let fits = whole.most + piece.most < most || self.lets_go();
            if fits && whole.text.len() + piece.text.len() + 2 <= room {
                // Behind a letter an attribute mark would open a quote.
                if piece.text.starts_with("L'") && !whole.text.is_empty() {
                    whole.text.push(',');
                    whole.most += 1;
                }
                join(&mut whole.text, &piece.text);
                if self.rng.chance(12) && ends_in_reference(&whole.text) {
                    whole.text.push('.');
                }
                whole.most += piece.most;
            }
        }
        whole
    }

    fn model_name(&mut self) -> Text {
        if self.pending.is_some() && self.rng.chance(80) {
            return Text::plain("");
        }
        match self.rng.below(12) {
            0..=4 => Text::plain(""),
            5..=6 => match self.made.label.clone() {
                Some(label) => {
                    Text { text: format!("{label}{}", self.rng.pick(&["", "", ".", ".1", ".X"])), least: 0, most: 12 }
                }
                None => Text::plain("LAB"),
            },
            7 => Text { text: format!("{}&SYSNDX", self.rng.pick(&["L", "N", "E", "@"])), least: 5, most: 5 },
            8 => match self.of_class(&[Class::Short]) {
                Some(symbol) => Text { text: symbol.name, least: 0, most: 8 },
                None => Text::plain("&&"),
            },
            _ => Text::plain(self.rng.pick(&["LAB", "A.B", "9", "N'1", "X&&", "(", "IT'S", "LONGNAME99"])),
        }
    }

    fn model_operation(&mut self) -> Text {
        if self.lets_go() {
            // Perhaps empty, perhaps a language word.
            return Text { text: self.reference(1).text, least: 0, most: 8 };
        }
        match self.rng.below(10) {
            0 => match self.of_shape(&[Shape::Operation]) {
                Some(parameter) => Text { text: parameter.symbol, least: 1, most: 5 },
                None => Text { text: "OP&SYSNDX".to_string(), least: 6, most: 6 },
            },
            1 => match self.of_class(&[Class::Mnemonic]) {
                Some(symbol) => Text { text: symbol.name, least: 1, most: 5 },
                None => Text { text: "L&SYSNDX".to_string(), least: 5, most: 5 },
            },
            2 => match self.of_class(&[Class::Bit, Class::Small, Class::Short]) {
                // A word before the value, so that no language word and no empty operation comes about.
                Some(symbol) => {
                    Text { text: format!("{}{}", self.rng.pick(&["Q", "Z9", "&&"]), symbol.name), least: 2, most: 10 }
                }
                None => Text::plain("LONGOPERATION"),
            },
            _ => Text::plain(self.rng.pick(PLAIN_OPERATIONS)),
        }
    }

    fn model(&mut self) {
        let name = self.model_name();
        let operation = self.model_operation();
        let start = 15.max(9.max(name.most.max(name.text.len()) + 1) + operation.most.max(operation.text.len()) + 1);
        let operand = self.model_operand(LINE_LIMIT - start, LINE_LIMIT - start);
        self.put(&name.text, &operation.text, &operand.text);
    }

    fn section(&mut self) {
        let name = self.rng.pick(&["CS1", "CS2", "", "", "SECT&SYSNDX", "&SYSECT.", "&SYSECT"]);
        let operation = self.rng.pick(SECTIONS);
        let operand = self.rng.pick(&["", "", "0"]);
        self.put(name, operation, operand);
    }

    fn remark(&mut self) {
        self.settle();
        let line = match self.rng.below(6) {
            0 => format!("*{}", "X".repeat(70)),
            1..=2 => format!(".*{}", self.rng.pick(&[" DROPPED", "&&&", "", "&UNKNOWN"])),
            _ => format!("*{}", self.rng.pick(&["", " IT'S (", " &NOT 'KNOWN", " COPIED", "*"])),
        };
        self.lines.push(line);
        self.cost += self.weight;
    }

    // ------------------------------------------------ calls

    /// A written operand for a parameter of a shape.
    fn value(&mut self, shape: Shape) -> Text {
        let inner = self.rng.chance(55);
        match shape {
            Shape::Depth => Text::plain(self.rng.pick(&["1", "2", "3"])),
            Shape::Number => self.number_value(inner),
            Shape::Word | Shape::Name => match self.of_class(&[Class::Short, Class::Bit, Class::Small]) {
                Some(symbol) if inner => Text { text: symbol.name, least: 0, most: symbol.class.lengths().1 },
                _ => Text::plain(word(self.rng)),
            },
            Shape::List | Shape::Numbers => {
                if let Some(parameter) = self.of_shape(&[shape]).filter(|_| inner) {
                    return Text { text: parameter.symbol, least: 0, most: 20 };
                }
                self.list(shape == Shape::Numbers)
            }
            Shape::Operation => match (self.of_shape(&[Shape::Operation]), self.of_class(&[Class::Mnemonic])) {
                (Some(parameter), _) if inner => Text { text: parameter.symbol, least: 1, most: 5 },
                (_, Some(symbol)) if inner => Text { text: symbol.name, least: 1, most: 5 },
                _ => Text::plain(self.rng.pick(&["DC", "NOP", "LA", "MNOTE"])),
            },
            Shape::Free => {
                if inner {
                    let made = self.reference(3);
                    if made.most <= 10 {
                        return match self.rng.below(5) {
                            0 => Text { text: format!("'{}'", made.text), least: 0, most: made.most + 2 }.unmarked(),
                            1 => Text { text: format!("({})", made.text), least: 0, most: made.most + 2 },
                            2 => Text { text: format!("X.{}", made.text), least: 0, most: made.most + 2 },
                            _ => made,
                        };
                    }
                }
                Text::plain(free(self.rng))
            }
        }
    }

    fn number_value(&mut self, inner: bool) -> Text {
        if inner {
            if let Some(parameter) = self.of_shape(&[Shape::Number, Shape::Depth]).filter(|_| self.rng.chance(40)) {
                return Text { text: parameter.symbol, least: 1, most: 6 };
            }
            if let Some(symbol) = self.of_class(&[Class::Small, Class::Counter, Class::Digits]) {
                return Text { text: symbol.name, least: 1, most: 4 };
            }
            return Text { text: "&SYSNDX".to_string(), least: 4, most: 4 };
        }
        Text::plain(&digits(self.rng))
    }

    fn list(&mut self, numbers: bool) -> Text {
        let mut whole = Text::plain("(");
        let count = if numbers { self.rng.between(2, 3) } else { self.rng.between(1, 4) };
        for at in 0..count {
            let inner = self.rng.chance(50);
            let entry = if numbers && at < 2 || self.rng.chance(30) {
                self.number_value(inner)
            } else {
                Text::plain(self.rng.pick(&["A", "", "12", "X1", "(B,C)", "'A,'"]))
            };
            // Two numbers always fit.
            if whole.most + entry.most + 2 > 20 {
                break;
            }
            let comma = if at > 0 { "," } else { "" };
            whole.text = format!("{}{comma}{}", whole.text, entry.text);
            whole.most += comma.len() + entry.most;
        }
        Text { text: format!("{})", whole.text), least: 2, most: whole.most + 1 }
    }

    /// The operands of a call in at most `room` bytes, written and replaced.
    fn operands(&mut self, callee: &Macro, room: usize, depth: Option<&str>) -> String {
        for _ in 0..4 {
            let mut positional: Vec<Text> = Vec::new();
            for parameter in &callee.positionals {
                let made = match (parameter.shape, depth) {
                    (Shape::Depth, Some(symbol)) => Text { text: symbol.to_string(), least: 1, most: 1 },
                    (shape, _) if shape.lengths().0 == 0 && self.rng.chance(15) => Text::plain(""),
                    (shape, _) => self.value(shape),
                };
                positional.push(made);
            }
            while positional.last().is_some_and(|last| last.text.is_empty()) && self.rng.chance(70) {
                positional.pop();
            }
            if positional.len() == callee.positionals.len() && self.rng.chance(15) {
                positional.push(self.value(Shape::Free));
            }
            let mut keywords = callee.keywords.clone();
            self.rng.shuffle(&mut keywords);
            for parameter in keywords {
                if self.rng.chance(40) {
                    let value = self.value(parameter.shape);
                    let name = parameter.symbol.trim_start_matches('&').to_string();
                    positional.push(Text {
                        most: value.most + name.len() + 1,
                        least: 0,
                        text: format!("{name}={}", value.text),
                    });
                }
            }
            let most: usize = positional.iter().map(|operand| operand.most.max(operand.text.len()) + 1).sum();
            let written: usize = positional.iter().map(|operand| operand.text.len() + 1).sum();
            if most <= room || written <= room && self.lets_go() {
                return positional.iter().map(|operand| operand.text.as_str()).collect::<Vec<&str>>().join(",");
            }
        }
        least_operands(callee, depth)
    }

    fn call(&mut self) {
        let callees = self.callees;
        let fitting: Vec<&Macro> =
            callees.iter().filter(|m| self.weight * (m.cost + 1) + self.cost < 400 && m.height < 5).collect();
        let Some(callee) = self.rng.choose(&fitting).copied() else { return self.model() };
        let mut operation = callee.name.clone();
        if self.rng.chance(20) {
            // The operation comes from a value, whole or in part.
            if let Some(symbol) = self.of_class(&[Class::Short]) {
                let cut = self.rng.below(callee.name.len());
                let (before, after) = callee.name.split_at(cut);
                self.put(&symbol.name, "SETC", &format!("'{after}'"));
                operation = format!("{before}{}", symbol.name);
            }
        }
        let name = self.model_name();
        let start = 15.max(9.max(name.most.max(name.text.len()) + 1) + operation.len().max(8) + 1);
        let operands = self.operands(callee, LINE_LIMIT - start, None);
        self.put(&name.text, &operation, &operands);
        self.height = self.height.max(callee.height);
        self.cost += self.weight * callee.cost;
    }

    /// A guarded call of the macro by itself.
    fn call_itself(&mut self) {
        let Some(depth) = self.of_shape(&[Shape::Depth]) else { return };
        let Some(counter) = self.of_class(&[Class::Counter]) else { return };
        let end = self.label();
        let last = if self.lets_go() { "GT 3" } else { self.rng.pick(&["LE 1", "LT 2", "EQ 1"]) };
        self.branch("AIF", &format!("({} {last}){end}", depth.symbol));
        self.put(&counter.name, "SETA", &format!("{}-1", depth.symbol));
        let made = self.made.clone();
        let name = self.model_name();
        let start = 15.max(9.max(name.most.max(name.text.len()) + 1) + made.name.len() + 1);
        let operands = self.operands(&made, LINE_LIMIT - start, Some(&counter.name));
        self.put(&name.text, &made.name, &operands);
        self.place(end);
    }

    // ------------------------------------------------ blocks

    fn conditional(&mut self, depth: usize) {
        let skip = self.label();
        let condition = self.whole_condition(71 - 16 - skip.len());
        self.branch("AIF", &format!("{condition}{skip}"));
        self.block(depth + 1, 3);
        if self.rng.chance(10) {
            self.put("", "MEXIT", "");
        } else if self.rng.chance(35) {
            let over = self.label();
            self.branch("AGO", &over);
            self.place(skip);
            self.block(depth + 1, 3);
            self.place(over);
            return;
        }
        self.place(skip);
    }

    fn repeated(&mut self, depth: usize) {
        let free: Vec<String> = self
            .symbols
            .iter()
            .filter(|s| s.class == Class::Counter && !self.busy.contains(&s.name))
            .map(|s| s.name.clone())
            .collect();
        let Some(counter) = self.rng.choose(&free).cloned() else { return };
        let (limit, most) = match self.rng.below(5) {
            0 => ("N'&SYSLIST".to_string(), 24),
            1 => match self.of_shape(&[Shape::List, Shape::Free, Shape::Numbers]) {
                Some(parameter) => (format!("N'{}", parameter.symbol), 20),
                None => ("2".to_string(), 2),
            },
            2 => match self.of_shape(&[Shape::Depth]) {
                Some(parameter) => (parameter.symbol, 3),
                None => ("3".to_string(), 3),
            },
            _ => {
                let count = self.rng.between(1, 4);
                (count.to_string(), count)
            }
        };
        if self.weight * most > 60 || self.branches + 3 * self.weight * most > 1000 {
            return;
        }
        let (top, end) = (self.label(), self.label());
        self.put(&counter, "SETA", "1");
        self.place(top.clone());
        let outer = self.weight;
        self.weight = outer * (most + 1);
        self.busy.push(counter.clone());
        if self.rng.chance(70) {
            self.branch("AIF", &format!("({counter} GT {limit}){end}"));
            self.block(depth + 1, 3);
            self.put(&counter, "SETA", &format!("{counter}+1"));
            self.branch("AGO", &top);
        } else {
            self.settle();
            self.block(depth + 1, 3);
            self.put(&counter, "SETA", &format!("{counter}+1"));
            self.branch("AIF", &format!("({counter} LE {limit}){top}"));
        }
        self.busy.pop();
        self.settle();
        self.weight = outer;
        self.place(end);
    }

    /// Values at the ends of the 32-bit range.
    fn edges(&mut self) {
        let Some(edge) = self.of_class(&[Class::Edge]) else { return };
        let value = self.rng.pick(&[
            "2147483647", "0-2147483647-1", "1-2147483647", "2147483646+1", "65535*32768", "0-65536*32767", "46340*46340",
            "2147483647/(0-1)", "0-2147483647",
        ]);
        self.put(&edge.name, "SETA", value);
        self.put("", "DC", &format!("F'{}'", edge.name));
        if self.rng.chance(60) {
            let next = self.rng.pick(&["/2", "/100000", "/(0-3)", "-0", "*1", "/0", "+0*5"]);
            self.put(&edge.name, "SETA", &format!("{}{next}", edge.name));
            self.put("", "DC", &format!("{}.F", edge.name));
        }
    }

    /// A string grown by doubling, up to 255 bytes.
    fn growth(&mut self) {
        let Some(long) = self.of_class(&[Class::Long]) else { return };
        let seed =
            self.rng.pick(&["ABCDE", "0123456789ABCDEFG", "A''B", "X", "ABCDEFGHIJKLMNOPQRSTUVWXYZ0123456789+-*/ABCDEFGHIJK"]);
        let mut length = seed.replace("''", "'").len();
        self.put(&long.name, "SETC", &format!("'{seed}'"));
        for _ in 0..self.rng.between(1, 7) {
            let times = self.rng.between(2, 5);
            if length * times <= STRING_LIMIT {
                self.put(&long.name, "SETC", &format!("'{}'", vec![long.name.as_str(); times].join("")));
                length *= times;
            }
        }
        if let Some(small) = self.of_class(&[Class::Small]) {
            self.put(&small.name, "SETA", &format!("K'{}", long.name));
            self.put("", "DC", &format!("L{}", small.name));
        }
        if let Some(short) = self.of_class(&[Class::Short]) {
            let start = self.rng.between(1, length);
            let count = self.rng.between(0, 8);
            let start = if self.rng.chance(30) { format!("K'{}", long.name) } else { start.to_string() };
            self.put(&short.name, "SETC", &format!("'{}'({start},{count})", long.name));
        }
    }

    /// A line that is 70 or 71 columns long once it is laid out.
    fn full_line(&mut self) {
        let Some(short) = self.of_class(&[Class::Short]) else { return };
        self.put(&short.name, "SETC", "'ABCDEFGH'");
        let fill = "Y".repeat(self.rng.between(46, 48));
        if self.rng.chance(50) {
            self.put("", "DC", &format!("{}.{fill}", short.name));
        } else {
            self.put("L&SYSNDX", "DC", &format!("{}.{fill}", short.name));
        }
    }

    /// All that &SYSLIST says of one operand after another.
    fn walk(&mut self) {
        let free: Vec<String> = self
            .symbols
            .iter()
            .filter(|s| s.class == Class::Counter && !self.busy.contains(&s.name))
            .map(|s| s.name.clone())
            .collect();
        let Some(counter) = self.rng.choose(&free).cloned() else { return };
        let Some(small) = self.of_class(&[Class::Small]) else { return };
        if self.weight > 4 || self.branches > 800 {
            return;
        }
        let (top, end) = (self.label(), self.label());
        self.put(&counter, "SETA", "0");
        self.place(top.clone());
        let outer = self.weight;
        self.weight = outer * 25;
        self.branch("AIF", &format!("({counter} GT N'&SYSLIST){end}"));
        let what = self.rng.pick(&["K", "N"]);
        self.put(&small.name, "SETA", &format!("{what}'&SYSLIST({counter})"));
        self.put("", "DC", &format!("{},&SYSLIST({counter}),&SYSLIST({counter},2)", small.name));
        self.put(&counter, "SETA", &format!("{counter}+1"));
        self.branch("AGO", &top);
        self.weight = outer;
        self.place(end);
    }

    fn statement(&mut self, depth: usize) {
        match self.rng.below(100) {
            0..=33 => self.model(),
            34..=59 => self.set(),
            60..=69 => self.call(),
            70..=77 if depth < 3 => self.conditional(depth),
            78..=83 if depth < 2 => self.repeated(depth),
            84..=87 => self.section(),
            88..=89 => self.remark(),
            90 => self.put("", "ANOP", ""),
            91..=92 => self.edges(),
            93..=94 => self.growth(),
            95 => self.full_line(),
            96 => self.walk(),
            97 => {
                let next = self.label();
                self.branch("AGO", &next);
                self.place(next);
            }
            _ => self.model(),
        }
    }

    fn block(&mut self, depth: usize, most: usize) {
        for _ in 0..self.rng.between(1, most) {
            self.statement(depth);
        }
    }
}

impl Text {
    /// In quotes there is no attribute mark; the text is dropped if it has one.
    fn unmarked(self) -> Text {
        if self.text.matches('\'').count() > 2 {
            Text::plain("'A'")
        } else {
            self
        }
    }
}

/// Remarks may follow where the line has an operand or its operation takes none.
fn remarked_if_safe(rng: &mut Random, line: String) -> String {
    let mut words = line.split(' ').filter(|word| !word.is_empty());
    let named = !line.starts_with(' ');
    let operation = if named { words.nth(1) } else { words.next() };
    let has_operand = words.next().is_some();
    let takes_none = matches!(operation, Some("ANOP" | "MEXIT" | "MEND" | "MACRO"));
    // A quote left open would take the remark in.
    if (has_operand || takes_none) && line.matches('\'').count() < 3 {
        remarked(rng, line)
    } else {
        line
    }
}

fn digits(rng: &mut Random) -> String {
    match rng.below(6) {
        0 => format!("00{}", rng.below(10_000)),
        1 => "0".to_string(),
        _ => rng.below(100).to_string(),
    }
}

fn word(rng: &mut Random) -> &'static str {
    rng.pick(&[
        "A", "B", "R1", "ALPHA12", "X", "$T", "Z_Z", "CSECT", "MEND", "AND", "T", "L", "K'X", "A.B", "7", "F'1'", "8X", "EQ",
    ])
}

fn free(rng: &mut Random) -> &'static str {
    rng.pick(&[
        "'A,B'", "''", "()", "(A)(B)", "((A,B),C)", "K'X", "A&&B", "(=)", "'='", "'A B'", "(A,B,,D)", "12", "(,)", "A'B'C",
        "'IT''S'", "L'A", "*", "+1-2", "(A,'),')", "2147483647", "9999999999", "('A)')", ".X", "(A)", "0000000001",
    ])
}

/// A literal value for a shape.
fn literal_value(rng: &mut Random, shape: Shape) -> String {
    match shape {
        Shape::Depth => rng.pick(&["1", "2", "3"]).to_string(),
        Shape::Number => digits(rng),
        Shape::Word | Shape::Name => word(rng).to_string(),
        Shape::Numbers => rng.pick(&["(1,2)", "(34,0,A)", "(0099,1,7)", "(5,6,)", "(12,34)"]).to_string(),
        Shape::List => rng
            .pick(&["(A,B)", "(A)", "((A,B),C)", "(A,,D)", "X", "()", "(,,,)", "('A,B',C)", "(1,2,3,4)", "(L'A,B)", ""])
            .to_string(),
        Shape::Operation => rng.pick(&["DC", "NOP", "LA", "MNOTE"]).to_string(),
        Shape::Free => free(rng).to_string(),
    }
}

/// The shortest operands that keep to the shapes.
fn least_operands(callee: &Macro, depth: Option<&str>) -> String {
    let all: Vec<String> = callee
        .positionals
        .iter()
        .map(|parameter| match parameter.shape {
            Shape::Depth => depth.unwrap_or("1").to_string(),
            Shape::Number => "1".to_string(),
            Shape::Numbers => "(1,2)".to_string(),
            Shape::Operation => "DC".to_string(),
            _ => String::new(),
        })
        .collect();
    all.join(",")
}

fn shape(rng: &mut Random) -> Shape {
    match rng.below(12) {
        0..=2 => Shape::Number,
        3..=4 => Shape::Word,
        5..=6 => Shape::List,
        7 => Shape::Numbers,
        8 => Shape::Operation,
        _ => Shape::Free,
    }
}

/// The globals of a library, each with one class.
fn globals(rng: &mut Random) -> Vec<Symbol> {
    let names = rng.shuffled(SYMBOL_NAMES);
    let count = rng.below(7);
    let classes = [Class::Small, Class::Bit, Class::Short, Class::Digits];
    names.into_iter().take(count).map(|name| Symbol { name: format!("&{name}"), class: classes[rng.below(4)] }).collect()
}

fn declarations(writer: &mut Writer, symbols: &[Symbol], word: &str) -> Vec<String> {
    let mut lines: Vec<String> = Vec::new();
    for kind in ['A', 'B', 'C'] {
        let names: Vec<&str> = symbols.iter().filter(|s| s.class.kind() == kind).map(|s| s.name.as_str()).collect();
        let size = writer.rng.between(1, 4);
        for part in names.chunks(size) {
            let line = spaced(writer.rng, "", &format!("{word}{kind}"), &part.join(","));
            lines.push(remarked(writer.rng, line));
        }
    }
    lines
}

/// Writes one macro that may call those in `callees`.
fn definition(rng: &mut Random, name: String, callees: &[Macro], shared: &[Symbol], bold: usize) -> Macro {
    let global: Vec<Symbol> = shared.iter().filter(|_| rng.chance(50)).cloned().collect();
    let mut names: Vec<String> = rng
        .shuffled(SYMBOL_NAMES)
        .into_iter()
        .map(|n| format!("&{n}"))
        .filter(|n| !global.iter().any(|g| g.name == *n))
        .collect();
    let mut fresh = || names.pop().unwrap_or_default();
    let label = if rng.chance(45) { Some(fresh()) } else { None };
    let deep = rng.chance(15);
    let mut positionals: Vec<Parameter> = Vec::new();
    if deep {
        positionals.push(Parameter { symbol: fresh(), shape: Shape::Depth, default: String::new() });
    }
    for _ in 0..rng.below(5) {
        positionals.push(Parameter { symbol: fresh(), shape: shape(rng), default: String::new() });
    }
    let mut keywords: Vec<Parameter> = Vec::new();
    if rng.chance(50) {
        for _ in 0..rng.between(1, 3) {
            let shape = shape(rng);
            keywords.push(Parameter { symbol: fresh(), shape, default: literal_value(rng, shape) });
        }
    }
    let mut local: Vec<Symbol> = Vec::new();
    for class in CLASSES {
        let (least, most) = match class {
            Class::Small | Class::Counter | Class::Short => (1, 2),
            Class::Bit => (0, 2),
            _ => (0, 1),
        };
        for _ in 0..rng.between(least, most) {
            local.push(Symbol { name: fresh(), class });
        }
    }
    rng.shuffle(&mut local);
    while prototype_operand(&positionals, &keywords).len() + name.len() + 10 > LINE_LIMIT && keywords.pop().is_some() {}
    let labels = rng.shuffled(SEQUENCE_NAMES);
    let made = Macro { name, label, positionals, keywords, height: 1, cost: 0, lines: Vec::new() };
    let symbols: Vec<Symbol> = global.iter().chain(local.iter()).cloned().collect();
    let callable: Vec<Macro> =
        if deep { callees.iter().filter(|m| m.height <= 2).cloned().collect() } else { callees.to_vec() };
    let named =
        made.label.iter().map(|symbol| Parameter { symbol: symbol.clone(), shape: Shape::Name, default: String::new() });
    let parameters = named.chain(made.positionals.iter().cloned()).chain(made.keywords.iter().cloned()).collect();
    let mut writer = Writer {
        rng,
        callees: &callable,
        made,
        parameters,
        symbols,
        lines: Vec::new(),
        labels,
        pending: None,
        busy: Vec::new(),
        weight: 1,
        cost: 0,
        branches: 0,
        height: 0,
        in_string: false,
        bold,
    };
    for symbol in writer.symbols.clone() {
        if matches!(symbol.class, Class::Digits | Class::Mnemonic) {
            writer.initial(&symbol);
        }
    }
    for _ in 0..writer.rng.between(2, 12) {
        writer.statement(0);
    }
    if deep {
        writer.call_itself();
        writer.block(1, 3);
    }
    writer.put("", "MEND", "");
    finish(writer, &global, &local, deep)
}

/// Puts header, declarations and ACTR before the body that was written.
fn finish(mut writer: Writer, global: &[Symbol], local: &[Symbol], deep: bool) -> Macro {
    let body = std::mem::take(&mut writer.lines);
    let mut lines = Vec::new();
    let header = spaced(writer.rng, "", "MACRO", "");
    lines.push(remarked_if_safe(writer.rng, header));
    lines.push(prototype(writer.rng, &writer.made));
    let mut declared = declarations(&mut writer, global, "GBL");
    declared.extend(declarations(&mut writer, local, "LCL"));
    if writer.rng.chance(40) {
        writer.rng.shuffle(&mut declared);
    }
    for line in declared {
        if writer.rng.chance(6) {
            lines.push(writer.rng.pick(&[".* BETWEEN", "* BETWEEN", "*", ".*"]).to_string());
        }
        lines.push(line);
    }
    if writer.rng.chance(30) {
        // The counter is never spent: it starts at the most branches that the body may take.
        let least = if writer.lets_go() { writer.branches / 4 } else { writer.branches };
        let operand = match writer.rng.below(5) {
            0 => format!("N'&SYSLIST+{least}"),
            1 => format!("{least}+&SYSNDX/10000"),
            2 => format!("(2*{least})/2"),
            3 => "4096".to_string(),
            _ => least.to_string(),
        };
        let line = spaced(writer.rng, "", "ACTR", &operand);
        lines.push(remarked(writer.rng, line));
    }
    let own = lines.len() + writer.cost;
    lines.extend(body);
    let times = if deep { 3 } else { 1 };
    Macro { height: times + writer.height, cost: own * times, lines, ..writer.made }
}

fn prototype_operand(positionals: &[Parameter], keywords: &[Parameter]) -> String {
    let positional = positionals.iter().map(|p| p.symbol.clone());
    let keyword = keywords.iter().map(|p| format!("{}={}", p.symbol, p.default));
    positional.chain(keyword).collect::<Vec<String>>().join(",")
}

fn prototype(rng: &mut Random, made: &Macro) -> String {
    let operand = prototype_operand(&made.positionals, &made.keywords);
    let line = spaced(rng, made.label.as_deref().unwrap_or(""), &made.name, &operand);
    if operand.is_empty() || operand.contains('\'') {
        line
    } else {
        remarked(rng, line)
    }
}

/// An accepted library: its macros, callees first.
pub fn macros(rng: &mut Random, count: usize, bold: usize) -> Vec<Macro> {
    let mut names = rng.shuffled(MACRO_NAMES);
    if rng.chance(2) {
        // Lines that look like the start of a section are then calls.
        names.insert(0, rng.pick(SECTIONS).to_string());
    }
    let shared = globals(rng);
    let mut made: Vec<Macro> = Vec::new();
    for name in names.into_iter().take(count) {
        let next = definition(rng, name, &made, &shared, bold);
        made.push(next);
    }
    made
}

/// The macros in some order, with lines between that belong to none.
pub fn library(rng: &mut Random, macros: &[Macro]) -> Vec<String> {
    let mut order: Vec<&Macro> = macros.iter().collect();
    rng.shuffle(&mut order);
    let mut lines = Vec::new();
    for one in order {
        if rng.chance(10) {
            lines.push(rng.pick(&["* BETWEEN", ".* IT'S", "", "NAMEONLY", "   ", "&&&", "LONELY  "]).to_string());
        }
        lines.extend(one.lines.iter().cloned());
    }
    lines
}

/// An open call that keeps to the shapes.
pub fn open_call(rng: &mut Random, callee: &Macro) -> String {
    let name = rng.pick(&["", "", "", "A", "LAB", "N1", ".SEQ", "(A,B)", "IT'S", "&&", "LONGNAME99", ".9", "K'X"]);
    for _ in 0..4 {
        let mut operands: Vec<String> = Vec::new();
        for parameter in &callee.positionals {
            let omitted = parameter.shape.lengths().0 == 0 && rng.chance(15);
            operands.push(if omitted { String::new() } else { literal_value(rng, parameter.shape) });
        }
        while operands.last().is_some_and(|last| last.is_empty()) && rng.chance(70) {
            operands.pop();
        }
        if operands.len() == callee.positionals.len() {
            for _ in 0..rng.below(6).saturating_sub(3) {
                operands.push(free(rng).to_string());
            }
        }
        for parameter in &callee.keywords {
            if rng.chance(40) {
                operands.push(format!("{}={}", parameter.symbol.trim_start_matches('&'), literal_value(rng, parameter.shape)));
            }
        }
        let operand = operands.join(",");
        let line = spaced(rng, name, &callee.name, &operand);
        if line.len() <= LINE_LIMIT {
            return if operand.is_empty() || line.matches('\'').count() > 1 { line } else { remarked(rng, line) };
        }
    }
    fixed("", &callee.name, &least_operands(callee, None))
}

/// An open line that is no call (as long as no macro has the operation's name).
pub fn open_line(rng: &mut Random) -> String {
    match rng.below(12) {
        0 => String::new(),
        1 => "*".to_string() + rng.pick(&["", " REMARK &A", "*", " IT'S"]),
        2 => ".*".to_string() + rng.pick(&[" KEPT IN OPEN CODE", "&&&", ""]),
        3 => rng.pick(&["NAMEONLY", "   ", "&&", "LONELY   ", ".SEQ"]).to_string(),
        4..=6 => fixed(rng.pick(&["CS1", "MAIN", "", "SECT", ".X", "&A"]), rng.pick(SECTIONS), rng.pick(&["", "0"])),
        7 => format!("{:<71}", "X        DC    C'WIDE' &UNKNOWN"),
        8 => fixed("", "DC", rng.pick(&["'OPEN", "&A,&B(", "K'&&X", "A=B", "((("])),
        _ => {
            let (name, operation) = (rng.pick(&["", "L1"]), rng.pick(&["NOP", "END", "MUL", "DC"]));
            let operand = rng.pick(&["", "X", "1,2 REMARK"]);
            spaced(rng, name, operation, operand)
        }
    }
}

/// A program of calls and other lines.
pub fn program(rng: &mut Random, macros: &[Macro]) -> Vec<String> {
    let mut lines = Vec::new();
    for _ in 0..rng.between(1, 5) {
        if rng.chance(45) {
            lines.push(open_line(rng));
        }
        if let Some(callee) = rng.choose(macros) {
            lines.push(open_call(rng, callee));
        }
    }
    if rng.chance(40) {
        lines.push(open_line(rng));
    }
    lines
}

pub fn case(rng: &mut Random) -> Case {
    bold_case(rng, 0)
}

/// A rich case in which some bounds are let go.
pub fn bold_case(rng: &mut Random, bold: usize) -> Case {
    let count = [1, 1, 2, 2, 3, 3, 4, 5, 6][rng.below(9)];
    let made = macros(rng, count, bold);
    let library = library(rng, &made);
    let program = program(rng, &made);
    let library = file(rng, &library);
    let program = file(rng, &program);
    case_of(library, program)
}
