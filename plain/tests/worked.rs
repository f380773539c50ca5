//! The worked lines of 01, and the readings that it rejects.

mod common;
use common::*;
use plain::printed;
use std::process::Command;

const LIBRARY: &str = include_str!("../../examples/mulw/library.mac");
const OPEN: &str = include_str!("../../examples/mulw/open.asm");

fn with_actr(n: u32) -> String {
    LIBRARY.replace("         LCLA  &I\n", &format!("         LCLA  &I\n         ACTR  {n}\n"))
}

fn shown(library: &str, program: &str) -> String {
    String::from_utf8(printed(library.as_bytes(), program.as_bytes())).unwrap()
}

#[test]
fn the_example_takes_15_steps() {
    let expected = "A        MUL   R1\n         NOP   0001\n         NOP   0001\n         RET\n* OK 4 LINES 15 STEPS\n";
    assert_eq!(shown(LIBRARY, OPEN), expected);
}

#[test]
fn with_actr_3_it_takes_16_steps() {
    assert!(shown(&with_actr(3), OPEN).ends_with("         RET\n* OK 4 LINES 16 STEPS\n"));
}

#[test]
fn with_actr_2_it_is_refused() {
    assert_eq!(shown(&with_actr(2), OPEN), "* REFUSED 9 LINE 1 STATEMENT 5\n");
}

#[test]
fn a_refused_library_prints_only_that() {
    let library = LIBRARY.replace("         NOP   &SYSNDX\n", "         LCLA  &J\n");
    assert_eq!(shown(&library, OPEN), "* LIBRARY REFUSED 2 LINE 7\n");
}

#[test]
fn the_program_prints_the_same() {
    let folder = concat!(env!("CARGO_MANIFEST_DIR"), "/../examples/mulw");
    let run = Command::new(env!("CARGO_BIN_EXE_plain")).args(["expand", folder]).output().unwrap();
    assert_eq!(String::from_utf8(run.stdout).unwrap(), shown(LIBRARY, OPEN));
    assert!(run.status.success());
}

#[test]
fn the_program_says_what_it_cannot_read() {
    let run = Command::new(env!("CARGO_BIN_EXE_plain")).args(["expand", "no-such-folder"]).output().unwrap();
    assert_eq!(run.status.code(), Some(2));
    assert!(String::from_utf8(run.stderr).unwrap().contains("no-such-folder/library.mac"));
}

#[test]
fn arithmetic() {
    assert_eq!(value("A", "2147483647", ""), Ok("2147483647".into()));
    assert_eq!(value("A", "2147483647+1", ""), Err(8));
    assert_eq!(value("A", "7/0", ""), Ok("0".into()));
    assert_eq!(value("A", "(0-7)/2", ""), Ok("3".into())); // -3, in text `3`
    assert_eq!(value("B", "((0-7)/2+3 EQ 0)", ""), Err(4)); // an arithmetic side does not begin with `(`
    assert_eq!(value("B", "(0+(0-7)/2 EQ 0-3)", ""), Ok("1".into()));
}

#[test]
fn substrings() {
    assert_eq!(value("C", "'ABCDE'(2,3)", ""), Ok("BCD".into()));
    assert_eq!(value("C", "'ABCDE'(4,9)", ""), Ok("DE".into()));
    assert_eq!(value("C", "'ABCDE'(6,1)", ""), Err(8));
    assert_eq!(value("C", "'A'(1,0)", ""), Ok("".into()));
}

#[test]
fn entries_are_counted() {
    for (operand, count) in [("(A,B,,D)", "4"), ("(A)(B)", "1"), ("()", "1"), ("", "0"), ("A", "1")] {
        assert_eq!(value("A", "N'&P", operand), Ok(count.into()), "{operand}");
    }
}

#[test]
fn the_shorter_string_is_less() {
    assert_eq!(value("B", "('9' LT '10')", ""), Ok("1".into()));
    assert_eq!(value("B", "('A' LT '1')", ""), Ok("0".into())); // by its stored code
}

#[test]
fn a_period_after_a_reference_is_removed() {
    assert_eq!(called(&[" DC &P..B"], "X"), Ok("         DC    X.B\n".into()));
}

#[test]
fn the_minus_sign_is_not_printed() {
    assert_eq!(called(&[" LCLA &A", "&A SETA 0-5", " DC &A"], ""), Ok("         DC    5\n".into()));
}

/// An inner call is not divided again after replacement.
#[test]
fn a_comma_from_a_value_divides_nothing() {
    let inner = text(&["         MACRO", "         IN    &X,&Y", " DC &X/&Y/", "         MEND"]);
    let outer = library(&[" LCLC &C", "&C SETC 'A,B'", " IN &C,C"]);
    assert_eq!(output(&(inner + &outer), " T\n"), Ok("         DC    A,B/C/\n".into()));
}

#[test]
fn sysect_is_not_updated_inside_the_macro() {
    let body = ["SECT CSECT", " DC A(&SYSECT)"];
    let expected = "SECT CSECT\n         DC    A()\nSECT CSECT\n         DC    A(SECT)\n";
    assert_eq!(output(&library(&body), " T\n T\n"), Ok(expected.into()));
}

/// An inner call has a counter of its own, and leaves its caller's alone.
#[test]
fn a_callers_counter_is_not_lent() {
    let inner = text(&["         MACRO", "         IN", " AGO .A", ".A AGO .B", ".B MEND"]);
    let outer = |n: u32| library(&[&format!(" ACTR {n}"), " IN", " AGO .X", ".X MEXIT"]);
    assert_eq!(output(&(inner.clone() + &outer(1)), " T\n"), Ok("".into()));
    assert_eq!(output(&(inner + &outer(0)), " T\n"), Err((9, 1, 3)));
}
