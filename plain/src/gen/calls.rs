//! Broken and odd calls, in open code and in bodies.

use super::*;

/// Operands that any call may have, and those that break a rule.
const OPERANDS: &[&str] = &[
    "A", "12", "", "", "'A,B'", "(A,B)", "((A,B),C)", "()", "(A)(B)", "''", "''''", "'IT''S'", "A'B'C", "L'X", "K'A", "T'X,Y",
    "L'", "N'1", "AL'X", "&&", "A&&B", "&&&&", "'&&'", "K1=", "K1=X", "K1=(A,B)", "K1='='", "K1=(A=B)", "K2=1", "K2=&&",
    "L=((1,2),3)", "L=", "T=L'A", "T='A B'", "K1=K'X", "K1=.X", "(K1=1)", "'K1=X'", "=", "=A", "A=", "K1==", "K1=A=B", "1K=2",
    "_=1", "K1234567=1", "K12345678=1", "UNKNOWN=1", "K3=1", "k1=1", "(", ")", "'", "(A", "A)", "((A)", "(A))", "(A B)",
    "'A B'", "(A,'),')", "(')')", "','", "A&B", "&", "&&&", "'&'", "'&&&'", "&K1=1", "K1&&=1", "K1=&", ".", ".X", "A.B", "*",
    "+-*/", "A 'B", "'A", "'A,K1=1", "A'B", "L'(", "L''", "T'&&", "K'&&A'", "=(A)", "(=", "=)", "$=", "K1=(", "K1=)", "K1='",
    "K1=''", "A,,,B", "&&L'X", "&&K'A,B'", "&&&&T'A B'", "1L'A,B'", "=L'A", "(L'A,B)", ",N'X", "$L'A,B'",
];

/// Operands with references, for calls in bodies.
const INNER: &[&str] = &[
    "&P", "&Q", "&C", "&D", "&E", "'&P'", "(&P)", "(&C,&D)", "&P.(", "&P,", "&C.,&D", "K1=&P", "K1=&C", "K1=(&Q)", "&P=X",
    "K&E=1", "=&C", "&C.=1", "&SYSNDX", "&SYSECT", "&SYSLIST(0)", "&SYSLIST(1)", "&SYSLIST(&E)", "&SYSLIST(N'&SYSLIST)",
    "&P(1)", "&P(2).X", "&SYSLIST(1,2)", "L'&P", "K'&C", "T'&P,X", "'&C''S'", "&&&P", "&&&&&C", "'&P,&Q'", "(&P,&Q)",
    "((&P),&Q,)", "A&P", "&P&Q", "&P.&Q.", "K2=&SYSNDX", "&N'A,B'", "&N'&P'", "(&N'A,B',X)", "&N'&P", "&&L'&P,X'",
];

const NAMES: &[&str] = &[
    "", "", "", "N", "NAME", ".SQ", ".", ".9", ".TOOLONGXX", ".A.B", "&&", "&", "&X", "'", "'X", "(U,V)", "K'&&", "A,B",
    "LONGNAMEOFTWENTYBYTES", "=", "N=1", "*X",
];

/// A value that few lines have room for.
const LONG: &str = "'ABCDEFGHIJKLMNOPQRSTUVWXYZ0123456789ABCDEFGHIJKLMNOP'";

const DEFAULTS: &[&str] =
    &["D1", "", "(P,Q)", "T'X", "'A,B'", "&&", "()", "1", "'='", "(A=B)", "L'A", "''", "((1,2),3)", "A&&B"];

/// Operands of a call, mostly good ones first and now and then a bad one.
pub fn operands(rng: &mut Random, inner: bool) -> String {
    let good = [
        "A", "12", "", "'A,B'", "(A,B)", "((A,B),C)", "()", "(A)(B)", "''", "'IT''S'", "L'X", "A&&B", "(A,,D)", "('A,B',C)",
        "2147483647", "2147483648", "0000000001", "X.Y", "(1)", "'A B'", "((A),(B,C))", "(A,B)C", "(,)", "K'X",
    ];
    let mut parts: Vec<&str> = Vec::new();
    for _ in 0..rng.below(5) {
        parts.push(match rng.below(10) {
            0..=4 => rng.pick(&good),
            5..=6 if inner => rng.pick(INNER),
            5..=7 => rng.pick(&["A", "K1=X", "K2=", "K1=(A,B)", "L=(X,,Y)", "T=T'A", "K2='A,B=C'"]),
            _ => rng.pick(OPERANDS),
        });
        // In a body these would be faults of the library.
        let last = parts.last().copied().unwrap_or("");
        if inner && OPERANDS.contains(&last) && (last.contains('&') || last.contains('k')) {
            parts.pop();
        }
    }
    // Keywords last, mostly, so that more than their order is tried.
    if rng.chance(75) {
        parts.sort_by_key(|part| part.contains('=') && !part.starts_with(['\'', '(']));
    }
    parts.join(",")
}

/// A macro that shows all of its values.
fn show(rng: &mut Random) -> Vec<String> {
    let label = if rng.chance(75) { "&NAME" } else { "" };
    let positional = rng.pick(&["&A,", "&A,&B,", "", "&A,&B,&X,"]);
    let mut keywords = String::new();
    for (keyword, plain) in [("&K1", "D1"), ("&K2", ""), ("&L", "(P,Q)"), ("&T", "1")] {
        let comma = if keywords.is_empty() { "" } else { "," };
        let default = rng.pick(DEFAULTS);
        let default = if positional.len() + keywords.len() + default.len() > 36 { plain } else { default };
        keywords = format!("{keywords}{comma}{keyword}={default}");
    }
    let mut lines = vec!["         MACRO".to_string(), fixed(label, "SHOW", &format!("{positional}{keywords}"))];
    lines.extend(lines_of(&["         LCLA  &I,&J,&K", "         LCLC  &C"]));
    if !label.is_empty() {
        lines.push("NAME     DC    &NAME".to_string());
    }
    lines.extend(lines_in(
        "
     DC    &K1.,&K2
&J       SETA  N'&L
     DC    &J,&L(1).,&L(2),&T
.L       AIF   (&I GT N'&SYSLIST).E
&J       SETA  K'&SYSLIST(&I)
&K       SETA  N'&SYSLIST(&I)
&C       SETC  T'&SYSLIST(&I)
P&I      DC    &J,&K,&C
     V     &SYSLIST(&I)
     V1    &SYSLIST(&I,1)
     V2    &SYSLIST(&I,2).,&SYSLIST(&I,3)
&I       SETA  &I+1
     AGO   .L
.E       ANOP
     MEND
",
    ));
    lines
}

/// A string of the bytes that sublists, quotes and attribute marks are made of: only a replaced operand can have such a value.
fn odd_value(rng: &mut Random) -> String {
    let pieces = ["(", "(", ")", ")", ",", ",", "A", "''", "L''", "K''X", "&&", " ", "=", "(A,B)", "1", "''A,''", "T''&&"];
    let whole: String = (0..rng.between(1, 8)).map(|_| rng.pick(&pieces)).collect();
    format!("'{whole}'")
}

/// A macro whose body has an odd call.
fn wrap(rng: &mut Random) -> Vec<String> {
    let default = rng.pick(&["SHOW", "ECHO", "OW", "NOP", "", "", "MEND", "AIF", "SETA", "WRAP"]);
    let values = [
        "'L'''", "''", "' '", "'(A'", "')'", "'1,2,3'", "'(A,B)'", "'''A,B'''", "'K1=X'", "'&&'", "'X   '", "'='", "'SHOW'",
        "'SHOW '", "'MEND '", "'CSECT '", "'CSECT'", "'&P'", "'''&Q'", "T'&P", LONG,
    ];
    let mut lines = vec!["         MACRO".to_string(), fixed("&N", "WRAP", &format!("&P,&Q,&O={default}"))];
    lines.extend(lines_of(&["         LCLC  &C,&D", "         LCLA  &E", "&E       SETA  1"]));
    for symbol in ["&C", "&D"] {
        let value = if rng.chance(50) { rng.pick(&values).to_string() } else { odd_value(rng) };
        lines.push(fixed(symbol, "SETC", &value));
    }
    for _ in 0..rng.between(1, 2) {
        let name = rng.pick(&["&N", "", "", "&C", "&N&C", ".S", "X", "L&SYSNDX", "&E..C", "&D.X", "*&C", "N'&C", "&&"]);
        // One sequence symbol names one line.
        let name = if name == ".S" && lines.iter().any(|line| line.starts_with(".S ")) { "" } else { name };
        let operation = match rng.below(11) {
            0 | 10 => "&O",
            1 => "SH&O",
            2 => "&C",
            3 => "ECHO",
            4 => "M&O",
            _ => "SHOW",
        };
        let operand = if rng.chance(30) {
            rng.pick(&["&C", "&C,&D", "&C&D", "(&C,&D)", "&P&C"]).to_string()
        } else {
            operands(rng, true)
        };
        let line = spaced(rng, name, operation, &operand);
        lines.push(if line.len() <= LINE_LIMIT { line } else { fixed("", operation, "&P,K1=&Q") });
        if rng.chance(30) {
            lines.push("         ECHO  &SYSNDX".to_string());
        }
    }
    lines.push("         MEND".to_string());
    lines
}

/// Good calls with odd values: what sublists, entries and attributes are made of them.
fn values_case(rng: &mut Random) -> Case {
    let mut library = show(rng);
    library.extend(lines_of(&["         MACRO", "&N       W     &P,&Q", "         LCLC  &C,&D"]));
    for symbol in ["&C", "&D"] {
        let value = odd_value(rng);
        library.push(fixed(symbol, "SETC", &value));
    }
    for _ in 0..rng.between(1, 3) {
        let operand = rng.pick(&[
            "&C", "&C,&D", "&C&D", "(&C,&D)", "(&C),&D.(1)", "&P&C", "'&C'", "&C.,L=&D", "&SYSLIST(1,2)", "&P(1)&D", "(&P,&C)",
        ]);
        library.push(fixed("&N", "SHOW", operand));
    }
    library.push("         MEND".to_string());
    let good = [
        "A", "(A,B)", "((A,B),C)", "()", "(A)(B)", "'A,B'", "('A,B',C)", "(L'A,B)", "(A'B,C'D)", "(A,'),')", "", "2147483647",
        "(K'A,'B')",
    ];
    let program: Vec<String> = (0..2).map(|_| fixed("N", "W", &format!("{},{}", rng.pick(&good), rng.pick(&good)))).collect();
    let library = file(rng, &library);
    let program = file(rng, &program);
    case_of(library, program)
}

pub fn case(rng: &mut Random) -> Case {
    match rng.below(800) {
        0 => return limits::call_numbers(rng),
        1..=160 => return values_case(rng),
        _ => {}
    }
    let mut parts = vec![show(rng)];
    parts.push(lines_in(
        "
     MACRO
     ECHO
     LCLA  &N
&N       SETA  N'&SYSLIST
     DC    &N,&SYSLIST(0),&SYSECT
     MEND
",
    ));
    if rng.chance(75) {
        parts.push(wrap(rng));
    }
    let loops = rng.chance(8);
    if loops {
        let call = fixed("", rng.pick(&["LOOP", "LOOP", "&P", "LOOP2"]), &operands(rng, true).replace(['&', '\''], ""));
        parts.push(vec![
            "         MACRO".to_string(),
            "         LOOP  &P".to_string(),
            "         NOP   &SYSNDX".to_string(),
            call,
            "         MEND".to_string(),
        ]);
        parts.push(lines_of(&["         MACRO", "         LOOP2 &P", "         LOOP  LOOP", "         MEND"]));
    }
    rng.shuffle(&mut parts);
    let library: Vec<String> = parts.concat();
    let mut program: Vec<String> = Vec::new();
    for _ in 0..rng.between(1, 4) {
        let operation = match rng.below(20) {
            _ if loops && rng.chance(50) => "LOOP",
            0 => rng.pick(WORDS),
            1 => rng.pick(&["NOP", "SHOWX", "SHO", "&&", "'", "(SHOW)", "show"]),
            2..=8 => "WRAP",
            9..=10 => "ECHO",
            _ => "SHOW",
        };
        let name = if rng.chance(60) { "" } else { rng.pick(NAMES) };
        let operand = if operation == "LOOP" && rng.chance(60) {
            rng.pick(&["LOOP", "LOOP2", "NOP", "MEND"]).to_string()
        } else {
            operands(rng, false)
        };
        let line = spaced(rng, name, operation, &operand);
        program.push(remarked(rng, line));
        if rng.chance(15) {
            program.push(rich::open_line(rng));
        }
    }
    let library = file(rng, &library);
    let program = file(rng, &program);
    case_of(library, program)
}
