//! Each refusal number, with both sides of each limit.

mod common;
use common::*;

/// A library of one macro without parameters.
fn library_x(body: &[&str]) -> String {
    format!("         MACRO\n         X\n{}         MEND\n", text(body))
}

fn good(library: &str) {
    assert_eq!(fault(library), None, "{library}");
}

#[test]
fn refusal_1_bytes_and_line_length() {
    let padded = |n: usize| format!("{:n$}", "         NOP");
    good(&library(&[&padded(71)]));
    assert_eq!(fault(&library(&[&padded(72)])), Some((1, 3)));
    assert_eq!(output("", &padded(71)).map(|o| o.len()), Ok(72));
    assert_eq!(output("", &padded(72)), Err((1, 1, 0)));
    let set = "ABCDEFGHIJKLMNOPQRSTUVWXYZ0123456789 $#@_+-*=,.()/'&";
    for byte in (0u8..128).filter(|&b| b != b'\n') {
        let line = format!("*{}", byte as char);
        let expected = if set.as_bytes().contains(&byte) { None } else { Some((1, 1)) };
        assert_eq!(fault(&line), expected, "byte {byte}");
    }
    assert!(plain::translate(&[b'*', 200]).is_err());
    // T2: a line with a bad byte still names a sequence symbol and still is the MEND; its own fault comes first
    assert_eq!(fault(&library(&[" AGO .X", ".X ANOP ;"])), Some((1, 4)));
    assert_eq!(fault("         MACRO\n         T\n         MEND ;\n X"), Some((1, 3)));
}

#[test]
fn refusal_2_places() {
    good("");
    good("\n* REMARK\n.* REMARK\nNAME\n  \n");
    assert_eq!(fault("         NOP\n"), Some((2, 1)));
    assert_eq!(fault("         MEND\n"), Some((2, 1)));
    assert_eq!(fault("         MACRO\n"), Some((2, 2)));
    assert_eq!(fault("         MACRO\n         T\n"), Some((2, 3)));
    assert_eq!(fault("         MACRO\n* REMARK\n         T\n         MEND\n"), Some((2, 2)));
    assert_eq!(fault("         MACRO\n\n         T\n         MEND\n"), Some((2, 2)));
    assert_eq!(fault(&library(&["NAME"])), Some((2, 3)));
    assert_eq!(fault(&library(&[" MACRO"])), Some((2, 3)));
    good(&library(&[" LCLA &A", "* R", " GBLA &B", ".* R", " ACTR 1", " ANOP"]));
    assert_eq!(fault(&library(&[" ANOP", " LCLA &A"])), Some((2, 4)));
    assert_eq!(fault(&library(&[" ACTR 1", " GBLA &A"])), Some((2, 4)));
    assert_eq!(fault(&library(&[" ACTR 1", " ACTR 1"])), Some((2, 4)));
    assert_eq!(fault(&library(&[" NOP", " ACTR 1"])), Some((2, 4)));
}

#[test]
fn refusal_3_names() {
    let proto = |line: &str| format!("         MACRO\n{line}\n         MEND\n");
    good(&proto(" ABCDEFGH"));
    assert_eq!(fault(&proto(" ABCDEFGHI")), Some((3, 2)));
    assert_eq!(fault(&proto(" 1A")), Some((3, 2)));
    assert_eq!(fault(&proto(" MEND")), Some((3, 2)));
    assert_eq!(fault(&proto(" A&B")), Some((3, 2)));
    assert_eq!(fault(&(proto(" T") + &proto(" T"))), Some((3, 5)));
    good(&proto(" T &ABCDEFG"));
    assert_eq!(fault(&proto(" T &ABCDEFGH")), Some((3, 2)));
    assert_eq!(fault(&proto(" T &A,&A")), Some((3, 2)));
    assert_eq!(fault(&proto("&A T &A=1")), Some((3, 2)));
    assert_eq!(fault(&proto(" T &SYS")), Some((3, 2)));
    good(&proto(" T &SY"));
    assert_eq!(fault(&library(&[" LCLA &P"])), Some((3, 3)));
    assert_eq!(fault(&library(&[" LCLA &A,&A"])), Some((3, 3)));
    assert_eq!(fault(&library(&[" LCLC &SYSX"])), Some((3, 3)));
    good(&library(&[" DC &P&SYSNDX&SYSECT"]));
    assert_eq!(fault(&library(&[" DC &X"])), Some((3, 3)));
    assert_eq!(fault(&library(&[" DC &SYSTIME"])), Some((3, 3)));
    good(&library(&[".ABCDEFG ANOP"]));
    assert_eq!(fault(&library(&[".ABCDEFGH ANOP"])), Some((3, 3)));
    assert_eq!(fault(&library(&[".A ANOP", ".A ANOP"])), Some((3, 4)));
    good(&library(&[" AGO .E", ".E ANOP"]));
    assert_eq!(fault(&library(&[" AGO .E"])), Some((3, 3)));
    assert_eq!(fault(&library(&[" AIF ().E"])), Some((3, 3))); // 3 hides 4
    let global = |name: &str, line: &str| format!("         MACRO\n {name}\n {line}\n         MEND\n");
    good(&(global("A", "GBLA &G") + &global("B", "GBLA &G")));
    assert_eq!(fault(&(global("A", "GBLA &G") + &global("B", "GBLC &G"))), Some((3, 7)));
    good(&(global("A", "GBLA &G") + &global("B", "LCLC &G")));
}

#[test]
fn refusal_4_form_and_kind() {
    let bad = [
        " DC &", " DC &&&", " DC &P(1", " DC &P()", " DC &P(1,2)", " DC &SYSLIST", " DC &SYSNDX(1)", " DC &A(1)",
        " DC N'&SYSLIST", ".1 DC", ". DC", "X AGO .E", "&A SETA -1", "&A SETA 1+", "&A SETA &B", "&A SETA 2147483648", "&A SETA",
        "&A SETA 1)", "&A SETA (1 +1)", "&A SETA &P.", "&A SETA L'&P", "&A SETA T'&P", "&A SETA K'&A", "&A SETA N'&C", "&A SETA K'&SYSLIST",
        "&A SETA K'&P(1,2)", "&B SETA 1", "&P SETA 1", " SETA 1", "&SYSNDX SETA 1", "&B SETB 1", "&B SETB (1 AND)",
        "&B SETB (NOT NOT 1)", "&B SETB (00)", "&B SETB (&P)", "&B SETB (1EQ 1)", "&B SETB (1 EQ1)", "&B SETB (1 EQ 'A')",
        "&B SETB ((1) EQ 1)", "&B SETB (1 EQ (1))", "&B SETB (&A)", "&C SETC A", "&C SETC 'A", "&C SETC 'A''", "&C SETC 'A''B",
        "&C SETC 'A'(1)", "&C SETC 'A'B", "&C SETC 'A'.T'&P", "&C SETC T'&C", "&C SETC T'&P.'A'", "&C SETC '&P(K'&Q)'",
        " DC C'&P(K'&Q)'", " ACTR", " AIF (1).", " AIF 1.E", " AIF (1) .E", " AIF (1).E.E", " AGO E", " AGO .E,", " DC &SYSLIST(1,2,3)",
    ];
    for line in bad {
        let line = if line == " ACTR" { vec![line] } else { vec![" LCLA &A", " LCLB &B", " LCLC &C", line] };
        let mut body = line.clone();
        body.push(".E ANOP");
        assert_eq!(fault(&library(&body)), Some((4, 2 + line.len())), "{line:?}");
    }
    let good_lines = [
        " DC &&", " DC &P(1)(2)", " DC &A.(1)", " DC &SYSLIST(1,2)", "&P(K'&Q) DC", " DC K'X", ".E1 DC", "&A SETA 002147483647",
        "&A SETA N'&SYSLIST+N'&SYSLIST(1,2)+K'&SYSECT+K'&C+&SYSNDX+&C+&P(1)", "&B SETB (1)", "&B SETB ('A'EQ'B'OR NOT(&B)AND 0)",
        "&B SETB ( NOT'A' EQ 'B' )", "&B SETB (T'&P EQ 'N')", "&C SETC T'&SYSLIST(0)", "&C SETC 'A''B'(1,2).'C'", "&C SETC '&&'",
    ];
    for line in good_lines {
        good(&library(&[" LCLA &A", " LCLB &B", " LCLC &C", line]));
    }
    let proto = |line: &str| fault(&format!("         MACRO\n{line}\n         MEND\n"));
    for line in [" T &A,", " T ,&A", " T A", " T &A=1,&B", " T &A&B", "X T", "&A.B T", " T &A=&B", " T &A=(", " T &A='", " T &A=B=C", " T &A="] {
        assert_eq!(proto(line), if line.ends_with("&A=") { None } else { Some((4, 2)) }, "{line}");
    }
    assert_eq!(proto(" T &A=(=),&B='=',&C=&&"), None);
    for line in [" LCLA", " LCLA &A,", " LCLA A", " LCLA &A(2)", "X LCLA &A", " LCLA &A.B"] {
        assert_eq!(fault(&library(&[line])), Some((4, 3)), "{line}");
    }
    assert_eq!(fault("X MACRO\n"), Some((4, 1)));
}

#[test]
fn refusal_5_limits() {
    let empty = |n: usize| "         MACRO\n         T\n         MEND\n".to_string() + &"\n".repeat(n - 3);
    good(&empty(512));
    assert_eq!(fault(&empty(513)), Some((5, 513)));
    let macros = |n: usize| (0..n).map(|i| format!(" MACRO\n T{i}\n MEND\n")).collect::<String>();
    good(&macros(32));
    assert_eq!(fault(&macros(33)), Some((5, 97)));
    let names = |n: usize| (0..n).map(|i| format!("&{}", char::from(b'A' + i as u8))).collect::<Vec<_>>().join(",");
    let proto = |name: &str, n: usize| fault(&format!(" MACRO\n{name} X {}\n MEND\n", names(n)));
    assert_eq!(proto("", 16), None);
    assert_eq!(proto("", 17), Some((5, 2)));
    assert_eq!(proto("&Z", 15), None);
    assert_eq!(proto("&Z", 16), Some((5, 2)));
    for kind in ["LCL", "GBL"] {
        let lines = |n: usize| library_x(&[&format!(" {kind}A {}", names(10)), &format!(" {kind}B {}", names(n).replace('&', "&$"))]);
        good(&lines(6));
        assert_eq!(fault(&lines(7)), Some((5, 4)));
    }
    // 16 globals of a library, distinct names; a name declared again is none more
    let both = |n: usize| format!(" MACRO\n A\n GBLA {}\n MEND\n MACRO\n B\n GBLA &A,&B\n GBLA {}\n MEND\n", names(10), names(n).replace('&', "&$"));
    good(&both(6));
    assert_eq!(fault(&both(7)), Some((5, 8)));
    let nested = |open: &str, n: usize, inner: &str, close: &str| format!("{}{inner}{}", open.repeat(n), close.repeat(n));
    let body = |line: String| fault(&library(&[" LCLA &A", " LCLB &B", " LCLC &C", &line]));
    assert_eq!(body(format!("&A SETA {}", nested("(", 8, "1", ")"))), None);
    assert_eq!(body(format!("&A SETA {}", nested("(", 9, "1", ")"))), Some((5, 6)));
    assert_eq!(body(format!("&A SETA {}", nested("(", 9, "", ")"))), Some((4, 6)));
    assert_eq!(body(format!(" DC {}", nested("&P(", 8, "1", ")"))), None);
    assert_eq!(body(format!(" DC {}", nested("&P(", 9, "1", ")"))), Some((5, 6)));
    assert_eq!(body(format!("&B SETB {}", nested("(", 8, "1", ")"))), None);
    assert_eq!(body(format!("&B SETB {}", nested("(", 9, "1", ")"))), Some((5, 6)));
    assert_eq!(body(format!("&B SETB (1 EQ {})", nested("&P(", 8, "1", ")"))), Some((5, 6)));
    assert_eq!(body(format!("&C SETC 'A'(1,{})", nested("(", 7, "1", ")"))), None);
    assert_eq!(body(format!("&C SETC 'A'(1,{})", nested("(", 8, "1", ")"))), Some((5, 6)));
    let open = |n: usize| "*\n".repeat(n / 2) + if n % 2 == 1 { "*" } else { "" };
    assert!(output("", &open(65_535)).is_ok());
    assert_eq!(output("", &open(65_536)), Err((5, 0, 0)));
}

#[test]
fn refusal_6_calls() {
    for operand in ["A,B,C,D", "K=", "K=1", ",,", "'A,B'", "(A,B)", "K'X", "K=(=)", "'='", "&&"] {
        assert!(called(&[" NOP"], operand).is_ok(), "{operand}");
    }
    for operand in ["'A", "(A", "A)", ")(", "K=1,K=2", "X=1", "K=1,A", "K=1,", "A=B=C", "K=A=B", "=A", "KKKKKKKK=1", "1=2", "&", "&&&", "(A B)"] {
        assert_eq!(called(&[" NOP"], operand), Err((6, 1, 0)), "{operand}");
    }
    // a refused inner call has its caller's place
    let inner = " MACRO\n IN\n MEND\n".to_string();
    assert_eq!(output(&(inner + &library(&[" NOP", " IN &P=1"])), " T A\n"), Err((6, 1, 2)));
}

#[test]
fn refusal_7_lengths() {
    let dc = |n: usize| format!("&P.{}", "X".repeat(n));
    assert_eq!(called(&[&format!(" DC {}", dc(54))], "A,B").map(|o| o.len()), Ok(71));
    assert_eq!(called(&[&format!(" DC {}", dc(55))], "A,B").map(|o| o.len()), Ok(72));
    assert_eq!(called(&[&format!(" DC {}", dc(56))], "A,B"), Err((7, 1, 1)));
    assert_eq!(called(&[" &P"], ""), Err((7, 1, 1)));
    let long = |n: usize| {
        let body = [" LCLC &C,&D", "&C SETC '12345678901234567890'", "&C SETC '&C&C&C&C&C&C'", "&C SETC '&C&C'", &format!("&D SETC '&C.{}'", "X".repeat(n))];
        called(&body, "")
    };
    assert_eq!(long(15), Ok("".into()));
    assert_eq!(long(16), Err((7, 1, 5)));
    // over 255 before a substring, in a condition, and joined: 7; but an 8 in the same statement comes first
    let body = |line: &'static str| called(&[" LCLC &C", " LCLA &A", " LCLB &B", "&C SETC 'ABCDEFGHIJKLMNOPQRSTUVWXYZ012345'", "&C SETC '&C&C&C&C'", line], "X");
    assert_eq!(body("&C SETC '&C&C'(1,1)"), Err((7, 1, 6)));
    assert_eq!(body("&B SETB ('&C&C' EQ '')"), Err((7, 1, 6)));
    assert_eq!(body("&C SETC '&C'.'&C'"), Err((7, 1, 6)));
    assert_eq!(body("&C SETC '&C&C'(257,1)"), Err((8, 1, 6)));
    assert_eq!(body("&C SETC '&C&C'(256,1)"), Err((7, 1, 6)));
    assert_eq!(body("&C SETC '&C&C'.'A'(&P,1)"), Err((8, 1, 6)));
}

#[test]
fn refusal_8_values() {
    assert_eq!(value("A", "&P", "2147483647"), Ok("2147483647".into()));
    for operand in ["2147483648", "", "A", "00000000001", "(1)"] {
        assert_eq!(value("A", "&P", operand), Err(8), "{operand}");
    }
    assert_eq!(value("A", "&P", "0000000001"), Ok("1".into()));
    assert_eq!(value("A", "0-2147483647-1", ""), Ok("2147483648".into()));
    assert_eq!(value("A", "0-2147483647-2", ""), Err(8));
    assert_eq!(value("A", "(0-2147483647-1)/(0-1)", ""), Err(8));
    assert_eq!(value("A", "65536*32768", ""), Err(8));
    assert_eq!(value("A", "2147483647*2/2", ""), Err(8)); // every intermediate
    assert_eq!(value("C", "'&P(1)'", "(A,B)"), Ok("A".into()));
    assert_eq!(value("C", "'&P(3)'", "(A,B)"), Ok("".into()));
    assert_eq!(value("C", "'&P(0)'", "(A,B)"), Err(8));
    assert_eq!(value("C", "'&SYSLIST(0-1)'", ""), Err(8));
    assert_eq!(value("C", "'&SYSLIST(0,0)'", ""), Err(8));
    assert_eq!(value("C", "'ABC'(0,1)", ""), Err(8));
    assert_eq!(value("C", "'ABC'(3,1)", ""), Ok("C".into()));
    assert_eq!(value("C", "'ABC'(4,0)", ""), Err(8));
    assert_eq!(value("C", "'ABC'(1,0-1)", ""), Err(8));
    assert_eq!(value("B", "(0 AND &P EQ 1)", "A"), Err(8)); // a side that cannot matter
    for (n, answer) in [("0", Ok("".to_string())), ("4096", Ok("".into())), ("4097", Err((8, 1, 1))), ("0-1", Err((8, 1, 1)))] {
        assert_eq!(called(&[&format!(" ACTR {n}")], ""), answer, "ACTR {n}");
    }
}

#[test]
fn refusal_9_counter() {
    let turns = |n: u32| [" LCLA &I".to_string(), format!(".A AIF (&I GE {n}).Z"), "&I SETA &I+1".into(), " AGO .A".into(), ".Z ANOP".into()];
    let run = |n: u32| called(&turns(n).iter().map(String::as_str).collect::<Vec<_>>(), "");
    assert_eq!(run(4095), Ok("".into())); // and the branch that leaves the loop
    assert_eq!(run(4096), Err((9, 1, 2)));
    assert_eq!(called(&[" ACTR 0", " AIF (0).E", ".E ANOP"], ""), Ok("".into()));
    assert_eq!(called(&[" ACTR 0", " AGO .E", ".E ANOP"], ""), Err((9, 1, 2)));
    assert_eq!(called(&[" ACTR 0", " AIF (&P EQ 1).E", ".E ANOP"], "A"), Err((8, 1, 2))); // a branch gives 9 last
}

#[test]
fn refusal_10_levels() {
    let chain = |n: usize| library(&[" LCLA &D", "&D SETA &P+1", &format!(" AIF (&P EQ {n}).E"), " T &D", ".E ANOP"]);
    assert_eq!(output(&chain(5), " T 1\n"), Ok("".into()));
    assert_eq!(output(&chain(6), " T 1\n"), Err((10, 1, 4)));
}

#[test]
fn refusal_11_calls() {
    let loops = |n: u32| library(&[" LCLA &I", ".A AIF (&I GE &P).Z", " IN", "&I SETA &I+1", " AGO .A", ".Z ANOP"]) + &format!(" MACRO\n IN\n{} MEND\n", if n == 0 { "" } else { " NOP &SYSNDX\n" });
    let program = |last: u32| format!(" T 4000\n T 4000\n T {last}\n");
    assert!(output(&loops(0), &program(1996)).is_ok()); // 3 + 9996 calls
    assert_eq!(output(&loops(0), &program(1997)), Err((11, 3, 3)));
    assert!(output(&loops(1), &program(1996)).is_ok_and(|o| o.ends_with("NOP   9999\n")));
}

#[test]
fn refusal_13_workspace() {
    let at = |n: usize| run("", "*\n", 100, n).map(|r| r.0.lines).map_err(|r| (r.number, r.open_line, r.body_line, r.steps));
    assert_eq!(at(32_768), Ok(1));
    assert_eq!(at(32_767), Err((13, 0, 0, 0)));
}

#[test]
fn refusal_14_room() {
    let at = |n: usize| run("", "*AB\n*\n", n, 32_768).map(|r| r.0.bytes).map_err(|r| (r.number, r.open_line, r.body_line, r.steps));
    assert_eq!(at(6), Ok(6));
    assert_eq!(at(5), Err((14, 2, 0, 2)));
    assert_eq!(at(4), Err((14, 2, 0, 2)));
    assert_eq!(at(3), Err((14, 1, 0, 1)));
    assert_eq!(at(0), Err((14, 1, 0, 1)));
}

#[test]
fn refusal_15_words() {
    for word in plain::definitions::WORDS {
        assert_eq!(output("", &format!("X {word} Y\n")), Err((15, 1, 0)));
        assert_eq!(called(&[" &P"], word), Err((15, 1, 1)));
    }
    assert_eq!(output("", " MNOTE 1\n COPY A\n"), Ok(" MNOTE 1\n COPY A\n".into()));
}
