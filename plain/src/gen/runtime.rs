//! Accepted libraries whose expansion is refused, at varied places and for more than one reason at once.

use super::*;

/// Statements that give 8 where &A is 2147483647, &S is ABC, &E empty, &W a word of letters, &L 234 bytes, &P the first operand.
const VALUE: &[&str] = &[
    "&A       SETA  &A+1", "&A       SETA  0-&A-2", "&A       SETA  &A*2/2", "&A       SETA  65536*32768",
    "&A       SETA  (0-&A-1)/(0-1)", "&A       SETA  &S", "&A       SETA  &E", "&A       SETA  &L", "&A       SETA  1+&E*0",
    "&A       SETA  &W*0", "&A       SETA  0*(&A+1)", "&A       SETA  &P", "&A       SETA  &P(1)", "&A       SETA  &P(0)",
    "&A       SETA  &P(&A+1)", "&A       SETA  &SYSLIST(0)", "&A       SETA  &SYSLIST(0-1)", "&A       SETA  K'&P(0)",
    "&A       SETA  N'&P(0-1)", "&A       SETA  N'&SYSLIST(0-1)", "&A       SETA  K'&SYSLIST(1,0)",
    "&A       SETA  K'&SYSLIST(0,0-5)", "&A       SETA  &SYSLIST(1,0)", "&A       SETA  &SYSLIST(99)",
    "&A       SETA  &SYSLIST(0-1,0)", "&C       SETC  '&S'(0,1)", "&C       SETC  '&S'(4,1)", "&C       SETC  '&S'(1,0-1)",
    "&C       SETC  '&E'(1,0)", "&C       SETC  ''(1,1)", "&C       SETC  '&S'(&E,1)", "&C       SETC  '&S'(1,&W)",
    "&C       SETC  '&S'(&A+1,1)", "&C       SETC  '&P(0)'", "&C       SETC  '&SYSLIST(0-1)'", "&C       SETC  T'&P(0)",
    "&C       SETC  T'&SYSLIST(1,0)", "&C       SETC  'X'.'&S'(9,9)", "&C       SETC  '&S'(1,1).'&E'(1,1)",
    "&C       SETC  '&L&L'(469,1)", "&C       SETC  '&L&L'(468,0-1)", "&B       SETB  (&A+1 GT 0)",
    "&B       SETB  (1 OR &A+1 GT 0)", "&B       SETB  (0 AND &S EQ 1)", "&B       SETB  ('&S'(4,1) EQ '')",
    "&B       SETB  (NOT ('&P(0)' LT 'A'))", "&B       SETB  (T'&P(0) EQ 'U' OR 1)", "         AIF   (&A+1 EQ 1).X",
    "         AIF   (1 OR &E EQ 0).X", "         AIF   ('&S'(0,0) EQ '').X", "         AIF   (&P(0) EQ 1 AND 0).X",
    "         AIF   (K'&P(0) EQ 1).X", "         NOP   &P(0)", "         NOP   &SYSLIST(0-1)", "         NOP   &SYSLIST(1,0)",
    "         NOP   &P(&E)", "         NOP   &P(&A+1)", "&P(0)    NOP   X", "         &P(0) X", "N&P(0)   M&W   &L",
    "         NOP   A,&P(&W),&P(0)", "         NOP   C'&P(0)'", "&P(&S)   &P(0) &P(1/0)", "         U     &P(0)",
    "         U     K=&P(0)", "         U     'A&P(0)", "         U     &P(0)(,X=1", "         &W    &P(0)",
    "&L&P(0)  &E    &L", "         NOP   &P(1-1)&L",
];

/// Statements that give 7.
const LENGTH: &[&str] = &[
    "&C       SETC  '&L&L'", "&C       SETC  '&L'.'&L'", "&C       SETC  '&L&L'(1,1)", "&C       SETC  '&L&L'(235,1)",
    "&B       SETB  ('&L&L' EQ '')", "&B       SETB  (1 OR '&L'.'&L' EQ '')", "         AIF   ('&L&L' NE '').X",
    "         AIF   (0 AND '' EQ '&L&L').X", "         NOP   &L", "&L       NOP   X", "         &L    X",
    "         NOP   &L.(1", "         &E    X", "         &E", "&L       &E    X", "         U     &L", "         U     K=&L",
    "         &C    &L", "         &W    &L", "         U     '&L", "         U     ZZ=&L", "         &SYSECT X",
    "         &SYSLIST(99)", "         &P(9) &P", "         &E.&E &L",
];

/// Statements that give 15, &W being a language word.
const WORD: &[&str] = &[
    "         &W    X", "         &W", "&P       &W    &P", "         M&M   X", "         &W    (", "         &W    'A",
    "L&SYSNDX &W    .X", ".Z       &W    X", "         &W.&E (1).X", "&W       &W    &W",
];

/// Statements that give 6.
const OPERANDS: &[&str] = &[
    "         U     &S.(", "         U     '&S", "         U     ZZ=1", "         U     K=1,K=2", "         U     K=1,&S",
    "         U     K=1,", "         U     =&S", "         U     A=B=C", "         &C    ZZ=&P", "         &C    )",
    "         &C    K=1,K=&P", "         U     (A B)", "         U     &S=1", "         U     K&E=1", "         U     K=A=&S",
    "         U     (&S))", "         U     'A B", "         U     K.=1", "         U     ((A,B)", "         U     X'",
    "         U     ZZ=&P &P", "         U     L'A'",
];

/// Statements that give 9 with a spent counter, or are good.
const BRANCH: &[&str] = &[
    "         AGO   .X", "         AIF   (1).X", "         AIF   (&A GT 0).X", "         AIF   ('&S' EQ 'ABC').X",
    "         V     3", "         V     1", "         V     0", "         Y     4097", "         Y     &S", "         Y     0",
    "         Y     1", "         Y     4096", "         Y", "         AIF   (0).X", "         AIF   (NOT 1).X",
];

/// Good statements.
const GOOD: &[&str] = &[
    "         NOP   &S,&P", "&A       SETA  &A-1", "&C       SETC  '&S'(1,2)", "&B       SETB  (&A LT 0)",
    "         U     &S,K=&P", "*  REMARK", ".* DROPPED", "&P       U     (&S,&P)", "CS       CSECT", "         V     0",
    "         ANOP", "         NOP   &SYSECT,&SYSNDX", "         U", "&G       SETA  &G+1", "         NOP   &G",
    "&A       SETA  2147483647", "&C       SETC  'U'",
];

/// Levels that go too deep.
const DEPTH: &[&str] =
    &["         R     1", "         R     &P", "         R     ZZ=1", "         R     &L", "         T     &P", "         &R"];

fn statement(rng: &mut Random) -> String {
    let table = match rng.below(24) {
        0..=8 => VALUE,
        9..=12 => LENGTH,
        13..=14 => WORD,
        15..=17 => OPERANDS,
        18..=20 => BRANCH,
        21 => DEPTH,
        _ => GOOD,
    };
    rng.pick(table).to_string()
}

/// Statements put together from a name, an operation and operands of which any may be refused.
fn mixed(rng: &mut Random) -> String {
    let name = rng.pick(&["", "", "&P(0)", "&L", "&S", "&P(1)", "&SYSLIST(0)", ".Z9", "N&A"]);
    let operation = rng.pick(&["NOP", "U", "U", "&C", "&W", "&E", "&P(0)", "M&M", "R", "&L", "V"]);
    let count = rng.between(0, 3);
    let operand: Vec<&str> = (0..count)
        .map(|_| {
            rng.pick(&[
                "&S", "&P", "&P(0)", "&L", "K=&S", "K=1", "ZZ=1", "(", "'A", "&SYSLIST(1,0)", "&P(&A+1)", "X", "&P(&W)", "3",
            ])
        })
        .collect();
    let line = fixed(name, operation, &operand.join(","));
    if line.len() <= LINE_LIMIT {
        line
    } else {
        "         NOP   &P(0)".to_string()
    }
}

fn host(rng: &mut Random) -> Vec<String> {
    let mut lines = lines_in(
        "
     MACRO
&N       T     &P,&Q
     LCLA  &A,&I
     LCLB  &B
     LCLC  &C,&E,&L,&W,&S,&M,&R
     GBLA  &G
",
    );
    if rng.chance(50) {
        lines.push(fixed("", "ACTR", rng.pick(&["0", "0", "1", "1", "2", "3", "&P", "5", "4096"])));
    }
    lines.extend(lines_of(&["&L       SETC  'ABCDEFGHIJKLMNOPQRSTUVWXYZABCDEFGHIJKLM'", "&L       SETC  '&L&L&L&L&L&L'"]));
    lines.push(fixed("&W", "SETC", &format!("'{}'", rng.pick(WORDS))));
    lines.extend(lines_of(&["&S       SETC  'ABC'", "&C       SETC  'U'", "&R       SETC  'R'"]));
    lines.push(fixed("&M", "SETC", rng.pick(&["'END'", "'ACRO'", "'EXIT'", "'OVE'"])));
    lines.push("&A       SETA  2147483647".to_string());
    let mut body: Vec<String> = (0..rng.below(3)).map(|_| rng.pick(GOOD).to_string()).collect();
    for _ in 0..rng.between(1, 2) {
        body.push(if rng.chance(25) { mixed(rng) } else { statement(rng) });
    }
    if rng.chance(30) {
        body.insert(0, "         AIF   (&G GE 1).X".to_string());
        body.insert(1, "&G       SETA  &G+1".to_string());
    }
    // One sequence symbol names one line.
    let mut seen = false;
    for line in &mut body {
        if line.starts_with(".Z") {
            *line = if seen { "         NOP   AGAIN".to_string() } else { line.clone() };
            seen = true;
        }
    }
    lines.extend(body);
    lines.extend(lines_of(&["         NOP   AFTER", ".X       NOP   &P,&A", "         MEND"]));
    lines
}

/// The macros that the statements call.
const CALLED: &str = "
     MACRO
&N       U     &Q,&K=D
     NOP   &Q,&K,&N
     MEND
     MACRO
     V     &Q
     LCLA  &I
     ACTR  {}
.L       AIF   (&I EQ &Q).E
&I       SETA  &I+1
     AGO   .L
.E       NOP   &I
     MEND
     MACRO
     Y     &Q
     ACTR  &Q
     NOP   Y
     AGO   .E
.E       MEND
     MACRO
     R     &Q
     NOP   &SYSNDX
     R     &Q
     MEND
";

fn called(rng: &mut Random) -> Vec<Vec<String>> {
    let lines = lines_in(&filled(rng, CALLED, &["1", "2", "0", "4", "&Q"]));
    lines.split_inclusive(|line| line.ends_with("MEND")).map(<[String]>::to_vec).collect()
}

fn host_case(rng: &mut Random) -> Case {
    let mut parts = called(rng);
    parts.push(host(rng));
    let mut first = "T";
    // Some levels above the statement.
    for (name, next) in
        [("OUTER1", "T"), ("OUTER2", "OUTER1"), ("OUTER3", "OUTER2")].into_iter().take([0, 0, 0, 1, 2, 3][rng.below(6)])
    {
        let call = fixed("&N", next, rng.pick(&["&P,&Q", "&P", "'&P'", "(&P),&Q", "7"]));
        parts.push(vec![
            "         MACRO".to_string(),
            fixed("&N", name, "&P,&Q"),
            "         NOP   &SYSNDX".to_string(),
            call,
            "         NOP   AFTER".to_string(),
            "         MEND".to_string(),
        ]);
        first = name;
    }
    rng.shuffle(&mut parts);
    let mut program = Vec::new();
    for _ in 0..rng.between(1, 3) {
        if rng.chance(40) {
            program.push(rich::open_line(rng));
        }
        let operand = rng.pick(&[
            "1", "0000000007", "12345678901", "X", "", "(1,2)", "(A,B)", "2147483647", "2147483648", "3", "'A'", "()", "0,9",
        ]);
        program.push(fixed(rng.pick(&["", "N", "5", ".S"]), first, operand));
    }
    match rng.below(80) {
        0 => program.push("         T     (z".to_string()),
        1 => program.insert(0, "         T     1;".to_string()),
        2 => program.push(fixed("", rng.pick(WORDS), "X")),
        3 => program.insert(0, format!("{:<72}", "         U     (")),
        _ => {}
    }
    let library = file(rng, &parts.concat());
    let program = file(rng, &program);
    let mut made = case_of(library, program);
    if rng.chance(8) {
        made.output = rng.below(400);
    }
    made
}

/// Arithmetic whose values are not looked at: overflow anywhere, operands that are no numbers.
fn arithmetic(rng: &mut Random, depth: usize) -> String {
    if depth == 0 || rng.chance(35) {
        let edge = ["2147483647", "65536", "32767", "46341", "1073741824", "&P", "&Q(2)", "&V", "&SYSLIST(3)"];
        let calm = [
            "1", "2", "3", "7", "10", "0", "&I", "&J", "K'&P", "N'&Q", "K'&V", "N'&SYSLIST", "&SYSNDX", "&Q(1)", "K'&Q(2)",
            "N'&Q(3)", "&SYSLIST(1)", "&D",
        ];
        return if rng.chance(25) { rng.pick(&edge).to_string() } else { rng.pick(&calm).to_string() };
    }
    let left = arithmetic(rng, depth - 1);
    let right = arithmetic(rng, depth - 1);
    let operator = rng.pick(&["+", "-", "*", "/", "-", "+"]);
    match rng.below(4) {
        0 => format!("({left}{operator}{right})"),
        1 => format!("{left}{operator}({right})"),
        _ => format!("{left}{operator}{right}"),
    }
}

fn string(rng: &mut Random) -> String {
    let text = rng.pick(&[
        "&V", "&P", "&Q", "ABC", "&I", "", "&V&P", "A''B", "&Q(2)", "&&", "&SYSLIST(2,1)", "&D.&V", "9", "10", "&SYSNDX", " ",
    ]);
    if rng.chance(35) {
        let (start, count) = (arithmetic(rng, 1), arithmetic(rng, 1));
        return format!("'{text}'({start},{count})");
    }
    format!("'{text}'")
}

fn condition(rng: &mut Random, depth: usize) -> String {
    if depth == 0 || rng.chance(40) {
        let relation = rng.pick(RELATIONS);
        return match rng.below(6) {
            0 => "&B".to_string(),
            1..=2 => format!("{} {relation} {}", string(rng), string(rng)),
            3 => format!("T'{} {relation} '{}'", rng.pick(&["&P", "&Q", "&SYSLIST(1)", "&Q(1)"]), rng.pick(&["N", "U", "O"])),
            _ => format!("0+{} {relation} {}", arithmetic(rng, 1), rng.pick(&["1", "&I", "2147483647", "K'&V"])),
        };
    }
    let (left, right) = (condition(rng, depth - 1), condition(rng, depth - 1));
    match rng.below(4) {
        0 => format!("NOT ({left})"),
        1 => format!("({left} OR {right})"),
        2 => format!("{left} AND {right}"),
        _ => format!("{left} OR NOT ({right})"),
    }
}

/// Expressions one after another, each result shown.
fn values_case(rng: &mut Random) -> Case {
    let mut library = lines_in(
        "
     MACRO
&N       T     &P,&Q,&R,&K=7
     LCLA  &I,&J
     LCLB  &B
     LCLC  &V,&D
&D       SETC  '12'
&V       SETC  'VALUE'
",
    );
    for _ in 0..rng.between(1, 8) {
        let line = match rng.below(6) {
            0..=2 => format!("{} SETA {}", rng.pick(&["&I", "&J"]), arithmetic(rng, 3)),
            3 => format!("&V SETC {}{}", string(rng), if rng.chance(40) { format!(".{}", string(rng)) } else { String::new() }),
            _ => format!("&B SETB ({})", condition(rng, 2)),
        };
        if line.len() <= LINE_LIMIT {
            library.push(line);
            library.push("         DC    &I,&J,&B,'&V'".to_string());
        }
    }
    library.push("         MEND".to_string());
    let operand = |rng: &mut Random| {
        rng.pick(&["1", "5", "07", "(3,4)", "(2,2147483647,X)", "(1,2,(A,B))", "12", "2147483647", "X", "", "(9,8)", "0"])
            .to_string()
    };
    let operands: Vec<String> = (0..rng.between(2, 3)).map(|_| operand(rng)).collect();
    let program = vec![fixed(rng.pick(&["", "N", "4"]), "T", &operands.join(",")), fixed("", "T", "1,(2,3),4")];
    let library = file(rng, &library);
    let program = file(rng, &program);
    case_of(library, program)
}

pub fn case(rng: &mut Random) -> Case {
    match rng.below(8) {
        0..=1 => values_case(rng),
        2..=3 => {
            let bold = rng.between(1, 6);
            rich::bold_case(rng, bold)
        }
        _ => host_case(rng),
    }
}
