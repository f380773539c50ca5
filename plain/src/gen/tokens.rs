//! Tokens of the language in random order, loosely arranged as definitions.

use super::*;

const TOKENS: &[&str] = &[
    "&P", "&N", "&K", "&A", "&B", "&C", "&G", "&ABCDEFG", "&U", "&SYSNDX", "&SYSECT", "&SYSLIST", "&SYSLIST(", "&SYSLIST(1)",
    "&P(", "&P(1)", "&", "&&", ".X", ".Y", ".Z", ".", "(", ")", "(", ")", "'", "'", "''", "+", "-", "*", "/", "=", ",", "1",
    "0", "2147483648", "00", "A", "ABC", "X", "K'", "N'", "T'", "L'", "K'&P", "N'&P", "T'&P", "K'&C", "N'&SYSLIST", "EQ", "NE",
    "AND", "OR", "NOT", " EQ ", " AND ", " OR ", "NOT ", " ", "'A'", "'&P'", "'&C'(1,1)", "(1,1)", "(1)", "&A+1",
];

/// Operands by statement that the tokens disturb.
const SEEDS: &[(&str, &str, &str)] = &[
    ("&A", "SETA", "&A+1*(K'&P-N'&SYSLIST(1))"),
    ("&A", "SETA", "&P(1)/2-&SYSNDX"),
    ("&A", "SETA", "((1)+&SYSLIST(1,1))"),
    ("&B", "SETB", "(&B OR NOT (&A EQ 1) AND 'A' LT '&C')"),
    ("&B", "SETB", "(T'&P EQ 'N')"),
    ("&B", "SETB", "( 1 )"),
    ("&C", "SETC", "'A&P'.'&C'(1,K'&P)"),
    ("&C", "SETC", "T'&P"),
    ("&C", "SETC", "'&&''&P(1)..'"),
    ("", "AIF", "(&A GT 5 OR &B).Y"),
    ("", "AIF", "('&C' EQ '').X"),
    ("", "AGO", ".Y"),
    ("&N", "NOP", "&P(1),'&C',&A..B"),
    ("L&SYSNDX", "&C", "K'&P,L'&P"),
    ("", "U", "&P,KK=&C"),
    ("&N", "U", "(&P,&A),'A,B',KK="),
    ("", "ACTR", "&K+1"),
    ("", "LCLA", "&X,&Y"),
    ("", "GBLC", "&G"),
    (".Z", "ANOP", ""),
    ("", "MEXIT", ""),
    ("&N.X", "DC", "C'&P''S'"),
    ("", "NOP", "&K'A B',&N'&P X',L'&P"),
    ("", "U", "&K'A,B',(&N'&P)'),L'&P"),
];

fn soup(rng: &mut Random, most: usize) -> String {
    (0..rng.between(0, most)).map(|_| rng.pick(TOKENS)).collect()
}

/// The operand with some tokens put in, over or out.
fn disturbed(rng: &mut Random, operand: &str) -> String {
    let mut text = operand.to_string();
    for _ in 0..rng.between(1, 2) {
        let at = rng.below(text.len() + 1);
        let end = (at + rng.below(4)).min(text.len());
        match rng.below(3) {
            0 => text.replace_range(at..end, ""),
            1 => text.insert_str(at, rng.pick(TOKENS)),
            _ => text.replace_range(at..end, rng.pick(TOKENS)),
        }
    }
    text
}

fn statement(rng: &mut Random) -> String {
    let (name, operation, operand) = rng.choose(SEEDS).copied().unwrap_or(("", "NOP", ""));
    let (name, operation, operand) = match rng.below(10) {
        0 => (soup(rng, 2), operation.to_string(), operand.to_string()),
        1 => (name.to_string(), soup(rng, 2), operand.to_string()),
        2 => (name.to_string(), rng.pick(WORDS).to_string(), operand.to_string()),
        3..=4 => (name.to_string(), operation.to_string(), soup(rng, 7)),
        5..=7 => (name.to_string(), operation.to_string(), disturbed(rng, operand)),
        8 => (disturbed(rng, name), operation.to_string(), operand.to_string()),
        _ => (name.to_string(), operation.to_string(), operand.to_string()),
    };
    // Some SETB and AIF operands stay in their pair however they are filled.
    if (operation == "SETB" || operation == "AIF") && rng.chance(40) {
        let target = if operation == "AIF" { ".Y" } else { "" };
        let inner = soup(rng, 6);
        return spaced(rng, &name, &operation, &format!("({inner}){target}"));
    }
    if operation == "SETC" && rng.chance(30) {
        let inner = soup(rng, 5);
        return spaced(rng, &name, &operation, &format!("'{inner}'"));
    }
    spaced(rng, &name, &operation, &operand)
}

/// Wholly loose lines between MACRO and MEND.
fn loose(rng: &mut Random) -> Vec<String> {
    let mut lines = lines_of(&["         MACRO"]);
    let operand = soup(rng, 4);
    lines.push(if rng.chance(60) {
        "&N       T     &P,&K=5".to_string()
    } else {
        filled(rng, &format!("{{}} T {{}},&K={operand}"), TOKENS)
    });
    for _ in 0..rng.between(1, 6) {
        let operation = if rng.chance(50) { rng.pick(WORDS) } else { rng.pick(&["NOP", "U", "T", "&P", "&C"]) };
        let name = if rng.chance(50) { String::new() } else { soup(rng, 1) };
        let operand = soup(rng, 5);
        lines.push(spaced(rng, &name, operation, &operand));
    }
    lines.push("         MEND".to_string());
    lines
}

fn arranged(rng: &mut Random) -> Vec<String> {
    let mut lines = lines_in(
        "
     MACRO
&N       T     &P,&K=5
     GBLC  &G
     LCLA  &A
     LCLB  &B
     LCLC  &C,&ABCDEFG
",
    );
    lines.extend(lines_of(&["&A       SETA  1", "&C       SETC  'NOP'", "&B       SETB  (1)"]));
    for _ in 0..rng.between(1, 2) {
        let line = statement(rng);
        // Declarations and ACTR stand before the other lines.
        let early = ["LCL", "GBL", "ACTR"].iter().any(|word| line.contains(word));
        let at = if early && rng.chance(80) { 6 } else { lines.len() };
        lines.insert(at, line);
    }
    lines.extend(lines_of(&["         DC    &A,&B,'&C'", ".X       NOP", ".Y       ANOP", "         MEND"]));
    lines
}

pub fn case(rng: &mut Random) -> Case {
    let mut library = if rng.chance(80) { arranged(rng) } else { loose(rng) };
    library.extend(lines_in(
        "
     MACRO
&NN      U     &X,&Y,&KK=D
     DC    &NN
     DC    &X,&Y,&KK
     MEND
",
    ));
    let mut program = vec![fixed(
        rng.pick(&["", "LAB", "(A,B)", ".S"]),
        "T",
        rng.pick(&["", "1", "2,K=7", "'A'", "(A,B)", "(1,2),3", "NOP"]),
    )];
    if rng.chance(40) {
        let (name, operand) = (soup(rng, 1), soup(rng, 5));
        let operation = if rng.chance(80) { rng.pick(&["T", "U"]) } else { rng.pick(TOKENS) };
        program.push(spaced(rng, &name, operation, &operand));
    }
    let library = file(rng, &library);
    let program = file(rng, &program);
    case_of(library, program)
}
