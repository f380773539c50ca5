//! Every limit, at it and one past it.

use super::*;

/// One below the limit now and then, else at it or one past it.
fn around(rng: &mut Random, limit: usize) -> usize {
    match rng.below(8) {
        0 => limit.saturating_sub(1),
        1..=4 => limit,
        _ => limit + 1,
    }
}

/// A macro T with one SET symbol of each kind around the lines.
fn host(body: &[String]) -> Vec<String> {
    let mut lines = lines_in(
        "
     MACRO
&N       T     &P,&Q
     LCLA  &A
     LCLB  &B
     LCLC  &C,&D
",
    );
    lines.extend(body.iter().cloned());
    lines.extend(lines_of(&["         NOP   &A,&B,&C", ".X       MEND"]));
    lines
}

fn call(rng: &mut Random, operand: &str) -> Vec<String> {
    let mut program = vec![fixed("", "T", operand)];
    if rng.chance(30) {
        program.push("         END".to_string());
    }
    program
}

fn with(rng: &mut Random, library: Vec<String>, program: Vec<String>) -> Case {
    let library = file(rng, &library);
    let program = file(rng, &program);
    case_of(library, program)
}

fn body_case(rng: &mut Random, body: &[String], operand: &str) -> Case {
    let program = call(rng, operand);
    with(rng, host(body), program)
}

fn names(count: usize, letter: char) -> Vec<String> {
    (0..count).map(|n| format!("&{letter}{n}")).collect()
}

fn nested(open: &str, core: &str, close: &str, depth: usize) -> String {
    format!("{}{core}{}", open.repeat(depth), close.repeat(depth))
}

fn library_lines(rng: &mut Random) -> Case {
    let total = around(rng, 512);
    let filler = rng.pick(&["*", ".*", " A", " A &P", ".* &", ""]);
    let inside = rng.chance(60) && !filler.is_empty();
    let count = total.saturating_sub(4);
    let fill = vec![filler.to_string(); count];
    let outer = if filler.starts_with(" A") { vec!["*".to_string(); count] } else { fill.clone() };
    let head = lines_of(&["         MACRO", "         T     &P"]);
    let mut tail = lines_of(&["         NOP   &P"]);
    // Without its MEND the macro ends one line past the last.
    tail.push(rng.pick(&["         MEND", "         MEND", "         MEND", "         MENDX"]).to_string());
    let library = if inside {
        [head, fill, tail].concat()
    } else if rng.chance(50) {
        [outer, head, tail].concat()
    } else {
        [head, tail, outer].concat()
    };
    let program = call(rng, "1");
    with(rng, library, program)
}

fn macro_count(rng: &mut Random) -> Case {
    let total = around(rng, 32);
    let mut lines = Vec::new();
    for n in 0..total {
        lines.extend([" MACRO".to_string(), format!(" M{n} &P"), format!(" A &P,{n}"), " MEND".to_string()]);
    }
    let program = (0..3).map(|_| fixed("", &format!("M{}", rng.below(total + 1)), "X")).collect();
    with(rng, lines, program)
}

fn parameters(rng: &mut Random) -> Case {
    let total = around(rng, 16);
    let label = rng.chance(50);
    let count = total - usize::from(label);
    let keyword = rng.below(count + 1);
    // Names of one letter, so that seventeen fit in a line.
    let letters = (b'A'..=b'Z').map(char::from).filter(|letter| *letter != 'N');
    let one = |(at, letter)| format!("&{letter}{}", if at < keyword { "" } else { "=" });
    let all: Vec<String> = letters.take(count).enumerate().map(one).collect();
    let line = format!("{} T {}", if label { "&N" } else { "" }, all.join(","));
    let library = vec![
        "         MACRO".to_string(),
        line,
        "         NOP   &SYSLIST(0),&SYSLIST(16),&SYSLIST(17)".to_string(),
        "         MEND".to_string(),
    ];
    let operand: Vec<String> = (0..rng.between(0, 20)).map(|n| n.to_string()).collect();
    let program = vec![fixed("N", "T", &operand.join(","))];
    with(rng, library, program)
}

fn locals(rng: &mut Random) -> Case {
    let all = names(around(rng, 16), 'V');
    let size = rng.between(1, 11);
    let mut library = lines_of(&["         MACRO", "         T     &P"]);
    if rng.chance(40) {
        // Globals are none of the locals.
        library.push("         GBLA  &G,&H".to_string());
    }
    for part in all.chunks(size) {
        library.push(fixed("", rng.pick(&["LCLA", "LCLB", "LCLC"]), &part.join(",")));
    }
    library.extend([fixed("", "NOP", &format!("{},{}", all[0], all[all.len() - 1])), "         MEND".to_string()]);
    let program = call(rng, "1");
    with(rng, library, program)
}

fn globals(rng: &mut Random) -> Case {
    let all = names(around(rng, 16), 'G');
    let size = rng.between(1, 11);
    let spread = rng.chance(60);
    let mut library = lines_of(&["         MACRO", "         T     &P"]);
    for (at, part) in all.chunks(size).enumerate() {
        if spread && at > 0 {
            library.extend(["         MEND".to_string(), "         MACRO".to_string(), format!(" M{at}")]);
            if rng.chance(40) {
                // Declaring a name again makes no new global.
                library.push(fixed("", "GBLA", &all[at - 1]));
            }
        }
        library.push(fixed("", "GBLA", &part.join(",")));
    }
    library.push("         MEND".to_string());
    let program = call(rng, "1");
    with(rng, library, program)
}

fn nesting(rng: &mut Random) -> Case {
    let depth = around(rng, NEST_LIMIT);
    let less = depth.saturating_sub(1);
    let body = match rng.below(16) {
        0 => fixed("&A", "SETA", &nested("(", "1", ")", depth)),
        1 => fixed("&A", "SETA", &nested("(1+", "1", ")", depth)),
        2 => fixed("&A", "SETA", &nested("&P(", "1", ")", depth)),
        3 => fixed("&A", "SETA", &nested("K'&P(", "1", ")", depth)),
        4 => fixed("&C", "SETC", &format!("'AB'({},1)", nested("(", "1", ")", less))),
        5 => fixed("&C", "SETC", &format!("'AB'(1,{})", nested("(", "1", ")", less))),
        6 => fixed("&C", "SETC", &format!("'{}'", nested("&P(", "1", ")", depth))),
        7 => fixed("", "AIF", &format!("{}.X", nested("(", "1", ")", depth))),
        8 => fixed("", "AIF", &format!("(0+{} EQ 1).X", nested("(", "1", ")", less))),
        9 => fixed("", "AIF", &format!("('{}' EQ '').X", nested("&P(", "1", ")", less))),
        10 => fixed("&B", "SETB", &nested("(", "1 OR 0", ")", depth)),
        11 => fixed("&B", "SETB", &nested("(NOT ", "(1)", ")", less)),
        12 => fixed("&B", "SETB", &format!("('AB'(1,{}) EQ 'A')", nested("(", "1", ")", depth.saturating_sub(2)))),
        13 => fixed("", "NOP", &nested("&P(", "1", ")", depth)),
        14 => fixed("", "NOP", &format!("&SYSLIST({},{})", nested("(", "1", ")", less), nested("(", "1", ")", less))),
        _ => fixed(&format!("L&P({})", nested("(", "1", ")", less)), "NOP", "X"),
    };
    body_case(rng, &[body], "(1,2)")
}

fn long_library_line(rng: &mut Random) -> Case {
    let length = around(rng, LINE_LIMIT);
    let base = rng.pick(&[
        "*", ".* ", "         NOP   &P ", "         NOP   ", "&A       SETA  1 ", "         LCLA  &Z ", ".Y       ANOP  ",
        "         DC    C'",
    ]);
    let fill = if rng.chance(40) { " " } else { "R" };
    let line = format!("{base}{}", fill.repeat(length - base.len()));
    if line.contains("LCLA") {
        let mut library = host(&[]);
        library.insert(2, line);
        let program = call(rng, "1");
        return with(rng, library, program);
    }
    if rng.chance(20) {
        let mut library = host(&[]);
        library.insert(0, format!("*{}", fill.repeat(length - 1)));
        let program = call(rng, "1");
        return with(rng, library, program);
    }
    body_case(rng, &[line], "1")
}

fn long_open_line(rng: &mut Random) -> Case {
    let length = around(rng, LINE_LIMIT);
    let base = rng.pick(&[
        "*", ".*", "         T     1 ", "X        T     ", "         NOP   ", "NAME", "         MEND  ", "         T     (,",
    ]);
    let fill = if rng.chance(40) { " " } else { "R" };
    let mut program = vec![format!("{base}{}", fill.repeat(length - base.len()))];
    if rng.chance(50) {
        program.insert(0, "         T     1".to_string());
    }
    let library = host(&["         NOP   &SYSLIST(1,1)".to_string()]);
    with(rng, library, program)
}

/// Names of seven or eight after `&` and `.`, of eight or nine for a macro, in every place that has one.
fn name_lengths(rng: &mut Random) -> Case {
    let seven = rng.pick(&["ABCDEFG", "_234567", "$######"]);
    let name = format!("{seven}{}", if rng.chance(50) { "" } else { "8" });
    let template = rng.pick(&[
        " T &NAME|         NOP   &SEVEN", " T &P,&NAME=1|         NOP   &P", "&NAME T|         NOP   X",
        " T &P|         LCLA  &NAME|         NOP   &P", " T &P|         GBLC  &SEVEN|         NOP   &NAME",
        " T &P|         GBLC  &SEVEN|&NAME SETC 'A'", " T &P|         AGO   .NAME|.SEVEN ANOP", " T &P|.NAME NOP &P",
        " T &P|         AIF   (1).NAME|.SEVEN NOP", " TNAME &P|         NOP   &P",
    ]);
    let text = format!("         MACRO|{template}|         MEND").replace("NAME", &name).replace("SEVEN", seven);
    let library: Vec<String> = text.split('|').map(str::to_string).collect();
    let operation = rng.pick(&["T", "TABCDEFG", "TABCDEFG8"]);
    let operand = rng.pick(&["1", "X,ABCDEFG=2", "ABCDEFG8=2", "ABCDEFG=", "_234567=1"]);
    with(rng, library, vec![fixed("", operation, operand), fixed("", "T", "1")])
}

fn string_lengths(rng: &mut Random) -> Case {
    let length = around(rng, STRING_LIMIT);
    // 51 bytes, doubled by name: 5 * 51 = 255.
    let block = "ABCDEFGHIJKLMNOPQRSTUVWXYZ0123456789+-*/ABCDEFGHIJK";
    let rest = "Z".repeat(length - 4 * block.len() - 40);
    let more = "Y".repeat(40);
    let mut body = vec![
        fixed("&C", "SETC", &format!("'{block}'")),
        fixed("&C", "SETC", "'&C&C&C&C'"),
        fixed("&D", "SETC", &format!("'{rest}'")),
    ];
    let template = rng.pick(&[
        "&C SETC '&C'.'&D'.'{}'", " AIF ('&C&D.{}' EQ '').X", "&C SETC '&C&D.{}'(1,1)", "&B SETB ('' LT '&C&D.{}')",
        "&C SETC '&C'.'&D.{}'", "&C SETC '&C&D.{}'(1,0-1)", "&C SETC '&C&D.{}'(256,0)", "&C SETC '&C&D.{}'(255,9)",
    ]);
    body.push(template.replace("{}", &more));
    body.extend(lines_of(&["&A       SETA  K'&C", "&C       SETC  '&A'"]));
    body_case(rng, &body, "1")
}

fn levels(rng: &mut Random) -> Case {
    let depth = around(rng, 5);
    let mut library = Vec::new();
    if rng.chance(50) {
        for level in 1..=depth {
            library.extend([
                " MACRO".to_string(),
                format!(" L{level} &P"),
                format!(" NOP &P,&SYSNDX,{level}"),
                format!(" L{} &P", level + 1),
                " NOP &SYSECT".to_string(),
                " MEND".to_string(),
            ]);
        }
        return with(rng, library, vec!["         L1    X".to_string(), "         L2    Y".to_string()]);
    }
    library.extend(lines_in(
        "
 MACRO
&N       T     &P
 LCLA &A
 NOP &P,&SYSNDX
     AIF   (&P LE 1).X
&A       SETA  &P-1
&N       T     &A
 NOP &A
.X       MEND
",
    ));
    with(rng, library, vec![fixed("N", "T", &depth.to_string()), fixed("", "T", "2")])
}

fn counter_values(rng: &mut Random) -> Case {
    let value = rng.pick(&[
        "0", "4096", "4097", "0-1", "1", "4095+1", "4096+1", "&P", "&P-1", "K'&P", "N'&SYSLIST", "65536*65536", "&SYSNDX",
        "1-1",
    ]);
    let mut library = lines_of(&["         MACRO", "         T     &P", "         LCLA  &A"]);
    library.push(fixed("", "ACTR", value));
    library.extend(lines_in(
        "
     NOP   A
     AIF   (&A EQ 2).X
     AGO   .Y
     NOP   B
.Y       ANOP
     AIF   (1).Z
.Z       NOP   C
.X       MEND
",
    ));
    let operand = rng.pick(&["0", "1", "2", "3", "4096", "4097", "X", ""]);
    let program = call(rng, operand);
    with(rng, library, program)
}

/// A loop that takes exactly as many branches as the counter has, or one more.
fn counter_spent(rng: &mut Random) -> Case {
    let default = rng.chance(10);
    let turns = if default { 2048 } else { rng.between(0, 9) };
    let mut library = lines_of(&["         MACRO", "         T     &P", "         LCLA  &I"]);
    // Each turn takes an AIF and an AGO; leaving takes one AIF more.
    if !default {
        library.push(fixed("", "ACTR", &(2 * turns + rng.between(0, 1)).to_string()));
    }
    library.extend(lines_of(&[
        ".L       AIF   (&I GE &P).X", "&I       SETA  &I+1", "         AIF   (&I GE 0).K", "         NOP   NEVER",
    ]));
    library.push(".K       AGO   .L".to_string());
    library.extend(lines_of(&[".X       NOP   &I", "         MEND"]));
    let program = vec![fixed("", "T", &(turns - usize::from(turns > 0 && rng.chance(30))).to_string()), fixed("", "T", "0")];
    with(rng, library, program)
}

/// 9999 calls, or one more.
pub fn call_numbers(rng: &mut Random) -> Case {
    let library = lines_in(
        "
 MACRO
 T &P,&Q
 LCLA &I
.L AIF (&I GE &P).X
&I SETA &I+1
 U &Q
 AGO .L
.X MEND
 MACRO
 U &Q
 LCLA &I
.L AIF (&I GE &Q).X
&I SETA &I+1
 V
 AGO .L
.X MEND
 MACRO
 V
 MEND
 MACRO
 W
 NOP &SYSNDX
 MEND
",
    );
    // 1 + 98 * 101 = 9899 calls, then 1 + 1 + 97 or 98, and the last ones.
    let mut program = lines_of(&[" T 98,100"]);
    program.push(format!(" T 1,{}", rng.between(96, 97)));
    program.push(" W".to_string());
    // Refusal 6 of the call comes before 11.
    program.push(rng.pick(&[" W", " W", " W", " W (", " W K=1", " T 1,1", " NOP"]).to_string());
    with(rng, library, program)
}

pub fn open_bytes(rng: &mut Random) -> Case {
    let length = around(rng, 65_535);
    let mut program: Vec<u8> = format!("{:<71}\n", "*").into_bytes().repeat(length / 72);
    let rest = length - program.len();
    program.extend(vec![b'*'; rest]);
    if rng.chance(50) {
        if let Some(last) = program.last_mut() {
            *last = b'\n';
        }
    }
    case_of(host(&[]).join("\n").into_bytes(), program)
}

fn decimals(rng: &mut Random) -> Case {
    let value = rng.pick(&[
        "2147483647", "2147483648", "02147483647", "002147483648", "4294967296", "9999999999", "00000000000000000001",
        "2147483646", "0", "000",
    ]);
    let body = match rng.below(8) {
        0..=1 => fixed("&A", "SETA", value),
        2 => fixed("", "AIF", &format!("({value} EQ &P).X")),
        3 => fixed("", "NOP", &format!("&P({value})")),
        4 => fixed("&C", "SETC", &format!("'ABC'(1,{value})")),
        5 => fixed("&C", "SETC", &format!("'ABC'({value},1)")),
        6 => fixed("&A", "SETA", &format!("K'&SYSLIST({value})")),
        _ => fixed("&A", "SETA", &format!("N'&SYSLIST(1,{value})+&SYSLIST(0{value},1)")),
    };
    let operand = rng.pick(&["1", "2147483647", "2147483648", "(1,2)"]);
    body_case(rng, &[body], operand)
}

fn digit_values(rng: &mut Random) -> Case {
    let value = rng.pick(&[
        "2147483647", "2147483648", "0000000001", "00000000001", "9999999999", "4294967297", "02147483647", "0", "0000000000",
        "1A", "-1", "+1", "", "'1'", "(1)", "(2147483648)", "1.", "1,2",
    ]);
    let use_of = rng.pick(&[
        "&A SETA &P", "&C SETC T'&P", "&A SETA K'&P", "&A SETA &P(1)", "&A SETA &SYSLIST(1)", "&C SETC T'&P(1)",
        "&A SETA &P+1", "&A SETA 0-&P-1", "&B SETB (&P EQ 1)", "&C SETC 'ABC'(&P,1)", "&C SETC T'&SYSLIST(1,1)",
    ]);
    let mut body = vec![use_of.to_string()];
    if rng.chance(40) {
        // The same value by way of a SETC symbol.
        body = vec!["&D SETC '&P'".to_string(), use_of.replace("&P(1)", "&D").replace("T'&P", "'&D'").replace("&P", "&D")];
    }
    body_case(rng, &body, value)
}

fn laid_out(rng: &mut Random) -> Case {
    let length = around(rng, LINE_LIMIT);
    let value = "V".repeat(rng.between(1, 20));
    let name = rng.pick(&["", "L&A", ".Y", "LONGNAMEOFMANYBYTES&A", "&C"]);
    let operation = rng.pick(&["NOP", "U", "NO&A", "VERYLONGOPERATION", "&C"]);
    // Replaced lengths: &A is 1 byte, &C is U.
    let replaced = |text: &str| if text.starts_with('.') { 0 } else { text.replace("&A", "0").replace("&C", "U").len() };
    let start = 15.max(9.max(replaced(name) + 1) + replaced(operation) + 1);
    let fill = length.saturating_sub(start + value.len());
    let spaces = if rng.chance(30) { fill.min(5) } else { 0 };
    let tail = if spaces > 0 { "&D" } else { "" };
    let line = format!("{name} {operation} &P.{}{tail}", "X".repeat(fill - spaces));
    // What is too long as it is written is no case for the layout.
    let line = if line.len() > LINE_LIMIT { fixed("", "NOP", "&P,&P") } else { line };
    let mut body = vec!["&C       SETC  'U'".to_string(), fixed("&D", "SETC", &format!("'{}'", " ".repeat(spaces))), line];
    if rng.chance(50) {
        body.push("         NOP   AFTER".to_string());
    }
    let mut library = host(&body);
    library.extend(lines_of(&[" MACRO", "&N       U     &P", "         DC    '&P'", " MEND"]));
    let program = call(rng, &value);
    with(rng, library, program)
}

fn edges(rng: &mut Random) -> Case {
    let terms =
        ["2147483647", "(0-2147483647-1)", "65536", "32768", "46341", "46340", "&P", "1", "0", "(0-1)", "2", "2147483646"];
    let mut text = String::new();
    for at in 0..rng.between(2, 4) {
        if at > 0 {
            text.push_str(rng.pick(&["+", "-", "*", "/"]));
        }
        text.push_str(rng.pick(&terms));
    }
    let body = match rng.below(4) {
        0 => format!(" AIF (0+{text} GT 0).X"),
        1 => format!("&B SETB (0-{text} LT 5)"),
        _ => format!("&A SETA {text}"),
    };
    let operand = rng.pick(&["2147483647", "1", "0", "2147483646", "3"]);
    body_case(rng, &[body.chars().take(LINE_LIMIT).collect()], operand)
}

fn buffer_lengths(rng: &mut Random) -> Case {
    let library = host(&["         DC    &P".to_string()]);
    // `         DC    1` and `         NOP   0,0,`, each with a newline.
    let needed = 17 + 20;
    let mut made = with(rng, library, vec!["         T     1".to_string()]);
    made.output = match rng.below(5) {
        0 => 16 + rng.below(3),
        _ => needed - 1 + rng.below(3),
    };
    made.workspace = [WORKSPACE - 1, WORKSPACE, WORKSPACE + 1, 0, WORKSPACE][rng.below(5)];
    made
}

/// As many sequence symbols as there are lines, each branching to another.
fn many_labels(rng: &mut Random) -> Case {
    let count = rng.between(300, 506);
    let mut order: Vec<usize> = (0..count).collect();
    rng.shuffle(&mut order);
    let mut library = lines_of(&[" MACRO", " T &P"]);
    library.push(format!(" ACTR {}", count - rng.below(2)));
    library.push(format!(" AGO .L{}", order[0]));
    for at in 0..count {
        let place = order.iter().position(|label| *label == at).unwrap_or(0);
        library.push(match order.get(place + 1) {
            Some(next) => format!(".L{at} AGO .L{next}"),
            None => format!(".L{at} MEXIT"),
        });
    }
    library.push(" MEND".to_string());
    let program = call(rng, "1");
    with(rng, library, program)
}

/// As many operands and entries as a line holds.
fn many_operands(rng: &mut Random) -> Case {
    let commas = rng.between(40, 55);
    let operand = match rng.below(4) {
        0 => ",".repeat(commas),
        1 => format!("({})", ",".repeat(commas - 2)),
        2 => format!("{}()", "(),".repeat(commas / 3)),
        _ => format!("{}X{}", "(".repeat(commas / 2), ")".repeat(commas / 2)),
    };
    let use_of =
        rng.pick(&["N'&SYSLIST", "N'&P", "N'&P(1)", "K'&P", "N'&SYSLIST(1,1)", "K'&SYSLIST(N'&SYSLIST)", "K'&SYSLIST(1,N'&P)"]);
    body_case(rng, &[fixed("&A", "SETA", use_of), fixed("", "DC", "&SYSLIST(9),&P(50),&P(1)")], &operand)
}

/// More output than the usual buffer holds, or nearly as much.
fn much_output(rng: &mut Random) -> Case {
    let mut library = lines_of(&[" MACRO", " T &P", " LCLA &I", ".L AIF (&I GE &P).X"]);
    library.push(format!("         DC    &I,{}", "Y".repeat(50)));
    library.extend(lines_of(&["&I SETA &I+1", " AGO .L", ".X MEND"]));
    let count = rng.between(1780, 1900).to_string();
    let program = vec![fixed("", "T", &count), fixed("", "T", &count)];
    with(rng, library, program)
}

/// 512 lines as full of symbols as they can be.
fn dense(rng: &mut Random) -> Case {
    let lines = [
        "&A SETA &A+&A+&A+&A+&A+&A+&A+&A+&A+&A+&A+&A+&A+&A+&A+&A+&A+&A+&A+&A+&A",
        " &C&C&C &A&A&A&A&A&A&A&A&A&A&A&A&A&A&A&A&A&A&A&A&A&A&A&A&A",
        "&B SETB (&B OR &B OR &B OR &B OR &B OR &B OR &B OR &B OR &B OR &B)",
    ];
    let line = rng.pick(&lines);
    let mut library = lines_in(
        "
 MACRO
 T &P
 LCLA &A
 LCLB &B
 LCLC &C
&C SETC 'X'
",
    );
    library.extend(vec![line.to_string(); 505]);
    library.push(" MEND".to_string());
    let program = call(rng, "1");
    with(rng, library, program)
}

pub fn case(rng: &mut Random) -> Case {
    match rng.below(200) {
        0..=5 => library_lines(rng),
        6..=10 => macro_count(rng),
        11..=20 => parameters(rng),
        21..=28 => locals(rng),
        29..=37 => globals(rng),
        38..=62 => nesting(rng),
        63..=72 => long_library_line(rng),
        73..=82 => long_open_line(rng),
        83..=97 => name_lengths(rng),
        98..=112 => string_lengths(rng),
        113..=120 => levels(rng),
        121..=130 => counter_values(rng),
        131..=138 => counter_spent(rng),
        139 => {
            if rng.chance(50) {
                call_numbers(rng)
            } else {
                open_bytes(rng)
            }
        }
        140..=150 => decimals(rng),
        151..=162 => digit_values(rng),
        163..=177 => laid_out(rng),
        178..=188 => edges(rng),
        189 => many_operands(rng),
        190..=198 => buffer_lengths(rng),
        _ => match rng.below(4) {
            0 => dense(rng),
            1 => many_labels(rng),
            2 => much_output(rng),
            _ => many_operands(rng),
        },
    }
}
