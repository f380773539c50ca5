//! The order of refusals within a statement: "1; parts left to right, operands before operators, giving 8; then 7, 15, 6, 10, 11,
//! 14; a branch gives 9 last." And the order of a library's faults.

mod common;
use common::*;

/// A statement that has two refusals gives the earlier one.
#[test]
fn within_a_statement() {
    let long = "X".repeat(60);
    let body = |line: &str| called(&[line], "A,MEND");
    assert_eq!(body(&format!(" DC &P(0){long}")), Err((8, 1, 1))); // 8 before 7
    assert_eq!(body(&format!(" &Q {long}")), Err((7, 1, 1))); // 7 before 15
    assert_eq!(body(" &Q (("), Err((15, 1, 1))); // 15 before 6
    let call = |name: &str, operand: &str| format!(" {name} {operand}");
    assert_eq!(called(&[&call("&P", &format!("({long}"))], "T"), Err((7, 1, 1))); // 7 before 6, a call too
    // 6 before 10: the sixth level is called with a bad operand
    let chain = |operand: &str| library(&[" LCLA &D", "&D SETA &P+1", " AIF (&P LT 5).E", &format!(" T &D{operand}"), " MEXIT", ".E T &D"]);
    assert_eq!(output(&chain(",("), " T 1\n"), Err((6, 1, 4)));
    assert_eq!(output(&chain(""), " T 1\n"), Err((10, 1, 4)));
    // 1 before 15 in open code, 15 before 14, 6 before 14
    assert_eq!(output("", " MEND ;\n"), Err((1, 1, 0)));
    assert_eq!(run("", " MEND\n", 0, 32_768).map_err(|r| r.number), Err(15));
    assert_eq!(run(&library(&[]), " T (\n", 0, 32_768).map_err(|r| r.number), Err(6));
}

/// X16: a call's level is tested (10) before its number (11).
#[test]
fn level_before_number() {
    let deep = |n: u32| {
        library(&[" LCLA &I,&D", "&D SETA &P+1", " AIF (&P EQ 5).L", " T &D", " MEXIT", ".L AIF (&I GE 3999).Z", " IN", "&I SETA &I+1", " AGO .L", ".Z ANOP"])
            + &format!(" MACRO\n IN\n MEND\n MACRO\n MANY &C\n LCLA &I\n.L AIF (&I GE &C).Z\n IN\n&I SETA &I+1\n AGO .L\n.Z MEND\n MACRO\n D &P\n LCLA &D\n&D SETA &P+1\n D &D\n MEND\n* {n}\n")
    };
    // 2 + 9992 calls, then levels 1 to 5 take numbers 9995 to 9999: the next call is both level 6 and call 10,000
    let program = " MANY 4090\n MANY 4090\n MANY 1811\n D 1\n";
    assert_eq!(output(&deep(0), program), Err((10, 4, 3)));
    assert_eq!(output(&deep(0), &program.replace("1811", "1812")), Err((11, 4, 3)));
}

/// "13, 12, 5 (all line 0), then as run"
#[test]
fn before_the_run() {
    let long = "*\n".repeat(40_000);
    let number = |program: &str, workspace| run("", program, 0, workspace).map_err(|r| (r.number, r.open_line, r.steps)).err();
    assert_eq!(number(&long, 0), Some((13, 0, 0)));
    assert_eq!(number(&long, 32_768), Some((5, 0, 0)));
    assert_eq!(number("*\n", 32_768), Some((14, 1, 1)));
}

/// "Translation answers 1 to 5 for the lowest faulty line, lowest number on it"
#[test]
fn of_a_library() {
    let deep = "((((((((((1))))))))))";
    let line = |l: &str| fault(&library(&[" LCLA &A", l]));
    assert_eq!(line(&format!("&A SETA {deep}")), Some((5, 4)));
    assert_eq!(line(&format!("&A SETA {deep}+")), Some((4, 4)));
    assert_eq!(line(&format!("&A SETA {deep}+&X")), Some((3, 4)));
    assert_eq!(fault(&library(&[" ANOP", " ACTR &X;"])), Some((1, 4)));
    assert_eq!(fault(&library(&[" ANOP", " ACTR &X"])), Some((2, 4)));
    assert_eq!(fault(&library(&[&format!("&N SETA {deep}"), " DC ;"])), Some((4, 3)));
}

/// X10: a refusal's step count has the refused line in it.
#[test]
fn steps_of_a_refusal() {
    let steps = |program: &str| run(&library(&[" DC &P", " DC &P(0)"]), program, 100, 32_768).map_err(|r| r.steps).err();
    assert_eq!(steps("*\n T A\n"), Some(4));
    assert_eq!(steps("*\n T (\n"), Some(2));
}
