//! An accepted library with one to three faults put in.

use super::*;

/// Second lines of a definition, each with a fault.
const PROTOTYPES: &[&str] = &[
    "         F     &P,&P", "&P       F     &P", "         F     &P,&K=1,&K=2", "         F     &SYSX", "&SYSN    F     &P",
    "         F     &P,&SYSNDX=1", "         F     &SYS", "         F     &ABCDEFGH", "&ABCDEFGHF     &P",
    "         F     &P,&ABCDEFGH=1", "&N.      F     &P", "N        F     &P", ".N       F     &P", "&N&P     F     &P",
    "&        F", "         FABCDEFGH &P", "         1F    &P", "         F.G   &P", "         &F    &P", "         MEND",
    "         SETA  &P", "         AIF", "         F     &P,", "         F     ,&P", "         F     &P,&K=1,&Q",
    "         F     P", "         F     &P(1)", "         F     &P.", "         F     &P&Q", "         F     &1",
    "         F     &", "         F     &P,&K=&", "         F     &P,&K=&&&", "         F     &P,&K=(",
    "         F     &P,&K=)", "         F     &P,&K='", "         F     &P,&K='A", "         F     &P,&K=A=B",
    "         F     &P,&K==", "         F     =1", "         F     &P,K=1", "         F     REMARK", "* REMARK", ".* REMARK",
    "", "NAMEONLY", "         F     &P,&K1.=2", "         F     &P,&K=(A B)", "         F     'A'", "         F     &&P",
    "&&N      F     &P", "         F     &P,&K='A'B'", "         F     &K=1,&P,&ABCDEFGH", "&ABCDEFGHI F   &SYSX",
    "         F     &P=1,&Q=2,&P=3", "         F'    &P", "         F     &P,,&Q", "         F     &P,&ABCDEFGH1,=",
];

/// Declarations, each with a fault where &P, &K, &A, &B and &C are declared.
const DECLARATIONS: &[&str] = &[
    "         LCLA  &P", "         LCLA  &A", "         LCLB  &K", "         LCLC  &N", "         GBLA  &A",
    "         LCLA  &D,&D", "         LCLA  &SYSX", "         GBLC  &SYSNDX", "         LCLA  &SYS",
    "         LCLA  &ABCDEFGH", "         LCLA", "         LCLA  D", "         LCLA  &D,", "         LCLA  ,&D",
    "         LCLA  &D(3)", "         LCLA  &D.", "         LCLA  &D&E", "         LCLA  &", "         LCLA  &&D",
    "         LCLA  &1", "         LCLA  '&D'", "         LCLA  &D,,&E", "X        LCLA  &D", ".X9      LCLA  &D",
    "&D       LCLA  &E", "         GBLB  &G,&G", "         GBLA  &G,&H,", "         LCLA  &D=1", "         LCLA  .X",
    "         LCLA  (&D)", "         LCLC  &D,&SYSLIST,&", "         LCLB  &ABCDEFGH,1", "         LCLA  &D,&A",
    "         LCLA  &D+1",
];

/// Body lines, each with a fault where &N, &P, &Q, &K are parameters, &A, &B, &C SET symbols by kind, and .X and .Y sequence symbols.
const BODY: &[&str] = &[
    "&A       SETA", "&A       SETA  +1", "&A       SETA  -1", "&A       SETA  1+", "&A       SETA  1++1", "&A       SETA  (1",
    "&A       SETA  1)", "&A       SETA  ()", "&A       SETA  1,2", "&A       SETA  A", "&A       SETA  '1'",
    "&A       SETA  2147483648", "&A       SETA  99999999999", "&A       SETA  &B", "&A       SETA  &SYSECT",
    "&A       SETA  &A(1)", "&A       SETA  &C(1)", "&A       SETA  &SYSNDX(1)", "&A       SETA  &SYSLIST",
    "&A       SETA  &SYSLIST(1,2,3)", "&A       SETA  &SYSLIST()", "&A       SETA  &P()", "&A       SETA  &P(1,2)",
    "&A       SETA  &P(1", "&A       SETA  K'&A", "&A       SETA  K'&B", "&A       SETA  N'&A", "&A       SETA  N'&C",
    "&A       SETA  N'&SYSNDX", "&A       SETA  T'&P", "&A       SETA  L'&P", "&A       SETA  K'X",
    "&A       SETA  K'&SYSLIST", "&A       SETA  &A.", "&A       SETA  &A&A", "&A       SETA  (1 1)", "&A       SETA  K&P",
    "&A       SETA  AK'&P", "&A       SETA  &P(1)(2)", "&A       SETA  &A*", "&A       SETA  *1", "&A       SETA  1/",
    "&A       SETA  N'&SYSLIST()", "&A       SETA  K'&SYSNDX(1)", "&A       SETA  =1", "&A       SETA  1.2",
    "&A       SETA  &U", "&A       SETA  &ABCDEFGH", "&A       SETA  &SYSX", "&A       SETA  &", "&A       SETA  &&",
    "&A       SETA  &&A", "&A       SETA  &1", "&U       SETA  1", "&P       SETA  1", "&SYSNDX  SETA  1", "&B       SETA  1",
    "&C       SETA  1", "A        SETA  1", "         SETA  1", ".Z       SETA  1", "&A.      SETA  1", "&A&A     SETA  1",
    "&ABCDEFGH SETA 1", "&        SETA  1", "&A(1)    SETA  1", "&&A      SETA  1", "&N       SETC  'A'", "&B       SETB",
    "&B       SETB  1", "&B       SETB  0", "&B       SETB  ()", "&B       SETB  (2)", "&B       SETB  (00)",
    "&B       SETB  (&A)", "&B       SETB  (&P)", "&B       SETB  (&C)", "&B       SETB  (1 EQ)", "&B       SETB  (EQ 1)",
    "&B       SETB  (1 EQ 1 EQ 1)", "&B       SETB  (1 = 1)", "&B       SETB  (1 EQ '1')", "&B       SETB  ('A' EQ 1)",
    "&B       SETB  ((1) EQ 1)", "&B       SETB  (1 EQ (1))", "&B       SETB  (NOT)", "&B       SETB  (NOT NOT 1)",
    "&B       SETB  (1 AND)", "&B       SETB  (OR 1)", "&B       SETB  (1 1)", "&B       SETB  (1 AND NOT)",
    "&B       SETB  (1 XOR 0)", "&B       SETB  (1", "&B       SETB  (1))", "&B       SETB  (1)(0)", "&B       SETB  (1).X",
    "&B       SETB  (1EQ 1)", "&B       SETB  (1 EQ1)", "&B       SETB  (1AND 1)", "&B       SETB  (NOT1)",
    "&B       SETB  (T'&P)", "&B       SETB  ('A')", "&B       SETB  (T'&P.'A' EQ 'N')", "&B       SETB  (1 +1 EQ 2)",
    "&B       SETB  ('A' . 'B' EQ 'AB')", "&B       SETB  (&B EQ 1)", "&B       SETB  (&A EQ &B)",
    "&B       SETB  (NOT(1) EQ 1)", "&B       SETB  ('A' EQ 'A'(1))", "&B       SETB  ('A EQ 'A')", "&B       SETB  (&U OR 1)",
    "&A       SETB  (1)", "&B       SETB  (1 EQ 1 )'X'", "&B       SETB  (( 1)", "&C       SETC", "&C       SETC  A",
    "&C       SETC  'A", "&C       SETC  'A''", "&C       SETC  A'", "&C       SETC  &C", "&C       SETC  &P",
    "&C       SETC  'A''B", "&C       SETC  'A'B", "&C       SETC  'A'.", "&C       SETC  .'A'", "&C       SETC  'A'..'B'",
    "&C       SETC  'A'(1)", "&C       SETC  'A'(1,1", "&C       SETC  'A'()", "&C       SETC  'A'(1,1,1)",
    "&C       SETC  'A'(,1)", "&C       SETC  'A'(1,)", "&C       SETC  'A'(1,1)(1,1)", "&C       SETC  T'&P.'A'",
    "&C       SETC  'A'.T'&P", "&C       SETC  K'&P", "&C       SETC  T'&C", "&C       SETC  T'&A", "&C       SETC  T'&SYSNDX",
    "&C       SETC  T'&SYSLIST", "&C       SETC  T'X", "&C       SETC  '&U'", "&C       SETC  '&'", "&C       SETC  '&&&'",
    "&C       SETC  '&C(1)'", "&C       SETC  '&A(1)'", "&C       SETC  '&SYSLIST'", "&C       SETC  '&P(K'&Q)'",
    "&C       SETC  '&P()'", "&C       SETC  'A'(&B,1)", "&C       SETC  'A'('1',1)", "&C       SETC  ('A')",
    "&C       SETC  'A','B'", "&C       SETC  'A'.(1,1)", "&B       SETC  'A'", "&C       SETC  '&ABCDEFGH'",
    "&C       SETC  '&SYSECT(1)'", "&C       SETC  T'&P(1)(2)", "         AIF", "         AIF   (1)", "         AIF   1.X",
    "         AIF   (1).", "         AIF   (1).9", "         AIF   (1)X", "         AIF   (1) .X", "         AIF   (1).X.",
    "         AIF   (1).X,1", "         AIF   (1).UNKNOWN", "         AIF   (1).TOOLONGX", "         AIF   ().X",
    "         AIF   (1.X", "         AIF   (&A).X", "         AIF   (&A EQ).X", "         AIF   (1)&P",
    "         AIF   (1).&P", "&A       AIF   (1).X", "L        AIF   (1).X", ".X       AIF   (1).X", ".TOOLONGX AIF  (1).X",
    "         AIF   (1)(0).X", "         AIF   ('('.X", "         AIF   1(1).UNKNOWN", "         AIF   &P(1).UNKNOWN",
    "         AIF   ')'(1).TOOLONGX", "         AGO", "         AGO   X", "         AGO   .", "         AGO   .9",
    "         AGO   .UNKNOWN", "         AGO   .TOOLONGX", "         AGO   .X,.Y", "         AGO   .X.", "         AGO   (.X)",
    "         AGO   &P", "         AGO   .X&P", "L        AGO   .X", "&N       AGO   .X", "L        ANOP", "&A       ANOP",
    ".9       ANOP", ".        ANOP", ".A.B     ANOP", ".TOOLONGX ANOP", "L        MEXIT", "&N       MEXIT", "L        MEND",
    ".X       ANOP", ".X       NOP", ".Y       MEXIT", "         NOP   &", "         NOP   &&&", "         NOP   &U",
    "         NOP   &ABCDEFGH", "         NOP   &A(1)", "         NOP   &SYSLIST", "         NOP   &SYSNDX(1)",
    "         NOP   &P(", "         NOP   &P()", "         NOP   N'&SYSLIST", "         NOP   &P(1,2)", "         NOP   &P(A)",
    "&U       NOP", "&        NOP", ".9       NOP", ".TOOLONGX NOP", "         N&U", "         &A(1) X", "&A(1)    NOP",
    "         &", "         NOP   C'&P(K'&Q)'",
];

const OUTSIDE: &[&str] = &[
    "         MEND", "         NOP   X", "         LCLA  &A", "X        EQU   1", "         AIF   (1).X", "         MACRO",
    " M1", "A        MACRO", "&N       MACRO", ".X       MACRO", "&ABCDEFGH MACRO", ".TOOLONGX MACRO", " &A", "MEND MEND",
];

const BAD_BYTES: [u8; 16] = [0, 9, 13, b'a', b'z', b'"', b'!', b'%', b';', b':', b'<', b'|', b'{', 127, 128, 255];

/// A macro with known symbols for a line to stand in.
fn host(body: &[String]) -> Vec<String> {
    let mut lines = lines_in(
        "
     MACRO
&N       FAULTY &P,&Q,&K=5
     LCLA  &A
     LCLB  &B
     LCLC  &C
",
    );
    lines.extend(lines_of(&[".X       NOP   &P", "&A       SETA  1"]));
    lines.extend(body.iter().cloned());
    lines.extend(lines_of(&[".Y       NOP   &A", "         MEND"]));
    lines
}

fn word_of(line: &[u8]) -> &[u8] {
    let operation = line.iter().position(|b| *b == b' ').map(|at| &line[at..]).unwrap_or(b"");
    let start = operation.iter().position(|b| *b != b' ').unwrap_or(operation.len());
    let rest = &operation[start..];
    &rest[..rest.iter().position(|b| *b == b' ').unwrap_or(rest.len())]
}

fn places(lines: &[Vec<u8>], words: &[&str]) -> Vec<usize> {
    (0..lines.len()).filter(|at| words.iter().any(|word| word_of(&lines[*at]) == word.as_bytes())).collect()
}

fn any_line(rng: &mut Random, lines: &mut Vec<Vec<u8>>) -> usize {
    if lines.is_empty() {
        lines.push(Vec::new());
    }
    rng.below(lines.len())
}

fn insert(rng: &mut Random, lines: &mut Vec<Vec<u8>>, text: &str) {
    let at = rng.below(lines.len() + 1);
    lines.insert(at, text.as_bytes().to_vec());
}

/// Somewhere after a MACRO line and its prototype.
fn insert_inside(rng: &mut Random, lines: &mut Vec<Vec<u8>>, text: &str) {
    let starts = places(lines, &["MACRO"]);
    let start = rng.choose(&starts).copied().unwrap_or(0) + 2;
    let end = (start..lines.len()).find(|at| word_of(&lines[*at]) == b"MEND").unwrap_or(start);
    let at = rng.between(start.min(end), end).min(lines.len());
    lines.insert(at, text.as_bytes().to_vec());
}

/// Adds a definition at a place where none is open.
fn add_definition(rng: &mut Random, lines: &mut Vec<Vec<u8>>, text: &[String]) {
    let starts = places(lines, &["MACRO"]);
    let at = if rng.chance(40) { lines.len() } else { rng.choose(&starts).copied().unwrap_or(lines.len()) };
    for (step, line) in text.iter().enumerate() {
        lines.insert((at + step).min(lines.len()), line.as_bytes().to_vec());
    }
}

fn remove(rng: &mut Random, lines: &mut Vec<Vec<u8>>, word: &str) {
    let all = places(lines, &[word]);
    if let Some(at) = rng.choose(&all) {
        lines.remove(*at);
    }
}

/// The line, now and then with one more thing that is wrong, or that only seems so: which number does it have then?
fn twisted(rng: &mut Random, line: &str) -> String {
    let twists = [
        (".X", ".UNKNOWN"),
        (".X", ".TOOLONGX"),
        ("&P", "&ABCDEFGH"),
        ("&A", "&UA"),
        ("1", "&U"),
        ("1", "&P(&U)"),
        ("(1)", "1(1)"),
        ("(1)", "'('(1)"),
        ("(1)", ")(1)"),
        ("1", "2147483648"),
        ("'A'", "'&U'"),
        ("&C", "&CC"),
        ("NOP", "&U"),
        ("         ", ".TOOLONGX "),
        ("         ", ".9       "),
        ("         ", "&U       "),
        ("(1)", "(((((((((1)))))))))"),
    ];
    let mut text = line.to_string();
    if rng.chance(30) {
        if let Some((old, new)) = rng.choose(&twists) {
            text = text.replacen(old, new, 1);
        }
    }
    if rng.chance(10) {
        text.push_str(rng.pick(&[" &UNKNOWN", " .UNKNOWN", "  &", " '", " )", " &ABCDEFGH"]));
    }
    text
}

/// A letter changed, doubled, dropped or put in within one of the statements.
fn disturb(rng: &mut Random, lines: &mut Vec<Vec<u8>>) {
    let at = any_line(rng, lines);
    let line = &mut lines[at];
    if line.is_empty() {
        return;
    }
    let column = rng.below(line.len());
    let byte = BYTE_SET[rng.below(BYTE_SET.len())];
    match rng.below(4) {
        0 => line[column] = byte,
        1 => line.insert(column, byte),
        2 => {
            line.remove(column);
        }
        _ => line.insert(column, line[column]),
    }
}

fn limit(rng: &mut Random, lines: &mut Vec<Vec<u8>>) {
    let many = |count: usize, letter: char| (0..count).map(|n| format!("&{letter}{n}")).collect::<Vec<String>>();
    let nested = |open: &str, core: &str, close: &str| format!("{}{core}{}", open.repeat(9), close.repeat(9));
    match rng.below(5) {
        0 => {
            let operand = many(17, 'V').join(",");
            add_definition(
                rng,
                lines,
                &[
                    "         MACRO".to_string(),
                    format!(" OVERFULL {operand}").chars().take(LINE_LIMIT).collect(),
                    "         MEND".to_string(),
                ],
            );
        }
        1 => {
            let line = |part: &[String]| fixed("", "LCLA", &part.join(","));
            let names = many(17, 'V');
            let mut text = lines_of(&["         MACRO", "         LOCALS"]);
            text.extend(names.chunks(9).map(line));
            text.push("         MEND".to_string());
            add_definition(rng, lines, &text);
        }
        2 => {
            let line = |part: &[String]| fixed("", "GBLC", &part.join(","));
            let names = many(17, 'W');
            let mut text = lines_of(&["         MACRO", "         GLOBALS"]);
            text.extend(names.chunks(8).map(line));
            text.push("         MEND".to_string());
            add_definition(rng, lines, &text);
        }
        3 => {
            let body = match rng.below(4) {
                0 => fixed("&A", "SETA", &nested("(", "1", ")")),
                1 => fixed("&B", "SETB", &nested("(", "1", ")")),
                2 => fixed("", "AIF", &format!("{}.X", nested("(", "1", ")"))),
                _ => fixed("", "NOP", &nested("&P(", "1", ")")),
            };
            add_definition(rng, lines, &host(&[body]));
        }
        _ => {
            let count = 513usize.saturating_sub(lines.len());
            lines.extend(vec![b"*".to_vec(); count]);
        }
    }
}

/// Puts one fault in.
fn fault(rng: &mut Random, lines: &mut Vec<Vec<u8>>) {
    match rng.below(24) {
        0..=1 => {
            let at = any_line(rng, lines);
            let byte = BAD_BYTES[rng.below(BAD_BYTES.len())];
            let column = rng.below(lines[at].len() + 1);
            if column < lines[at].len() && rng.chance(70) {
                lines[at][column] = byte;
            } else {
                lines[at].insert(column, byte);
            }
        }
        2 => {
            let at = any_line(rng, lines);
            let fill = if rng.chance(50) { b' ' } else { b'X' };
            if lines[at].len() < 72 && fill != b' ' {
                lines[at].push(b' ');
            }
            let length = rng.between(72, 74).max(lines[at].len());
            lines[at].resize(length, fill);
        }
        3 => {
            let text = rng.pick(OUTSIDE);
            insert(rng, lines, text);
        }
        4 => insert_inside(rng, lines, "         MACRO"),
        5 => {
            let word = rng.pick(&["MEND", "MEND", "MACRO"]);
            remove(rng, lines, word);
        }
        6 => {
            let text = rng.pick(&["", "NAMEONLY", "   ", ".SEQ", "&P", ".X "]);
            insert_inside(rng, lines, text);
        }
        7 => {
            let text = rng.pick(&[
                "         LCLA  &LATE", "         GBLC  &LATE", "         ACTR  5", "         ACTR", "X        ACTR  1",
                "         ACTR  &LATE", "         ACTR  'A'", " ACTR (1",
            ]);
            insert_inside(rng, lines, text);
        }
        8 => lines.extend(
            ["         MACRO", "         UNENDED &P", "         NOP"]
                .iter()
                .take(rng.between(1, 3))
                .map(|line| line.as_bytes().to_vec()),
        ),
        9..=10 => {
            let text = lines_of(&["         MACRO", rng.pick(PROTOTYPES), "         NOP   X", "         MEND"]);
            add_definition(rng, lines, &text);
        }
        11..=12 => {
            let mut text = host(&[]);
            text.insert(rng.between(2, 5), rng.pick(DECLARATIONS).to_string());
            add_definition(rng, lines, &text);
        }
        13..=17 => {
            let line = rng.pick(BODY);
            let line = twisted(rng, line);
            add_definition(rng, lines, &host(&[line]));
        }
        18 => {
            let line = rng.pick(BODY);
            insert_inside(rng, lines, line);
        }
        19 => limit(rng, lines),
        20 => {
            // A macro twice.
            let copy = lines.clone();
            let start = places(lines, &["MACRO"]).first().copied().unwrap_or(0);
            let end = places(lines, &["MEND"]).first().copied().unwrap_or(0) + 1;
            lines.extend(copy.get(start..end).unwrap_or(&[]).iter().cloned());
        }
        21 => {
            // A symbol made too long or unknown.
            let mut spots: Vec<(usize, usize)> = Vec::new();
            for (at, line) in lines.iter().enumerate() {
                spots.extend(line.iter().enumerate().filter(|(_, b)| **b == b'&').map(|(column, _)| (at, column)));
            }
            if let Some((at, column)) = rng.choose(&spots).copied() {
                let more = rng.pick(&["ABCDEFGH", "U", "SYS", "&", "1", "."]);
                lines[at].splice(column + 1..column + 1, more.bytes());
            }
        }
        _ => disturb(rng, lines),
    }
}

pub fn case(rng: &mut Random) -> Case {
    // One or two macros are enough to hide a fault in.
    let count = rng.between(1, 2);
    let kept = &rich::macros(rng, count, 0);
    let mut lines: Vec<Vec<u8>> = rich::library(rng, kept).into_iter().map(String::into_bytes).collect();
    for _ in 0..[1, 1, 1, 2, 2, 3][rng.below(6)] {
        fault(rng, &mut lines);
    }
    let mut library = lines.join(&b'\n');
    if !rng.chance(4) {
        library.push(b'\n');
    }
    let program = rich::program(rng, kept);
    let program = file(rng, &program);
    case_of(library, program)
}
