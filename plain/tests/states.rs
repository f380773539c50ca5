//! The states that `plain states` prints are those of the definition: the record `State` of `crates/rules/specs/Machine.antt`.

mod common;

use common::text;
use plain::batch::Case;
use plain::states::states;

fn case(library: &[&str], program: &[&str]) -> Case {
    let bytes = |lines| text(lines).into_bytes();
    Case { id: "C".to_string(), library: bytes(library), program: bytes(program), output: 100, workspace: 32_768 }
}

const LIBRARY: [&str; 17] = [
    "         MACRO",
    "&N       T     &P,&K=D",
    "         GBLA  &G",
    "         LCLC  &C",
    "&G       SETA  0-3",
    "&N       CSECT",
    "&C       SETC  '&P'' Z'",
    "         U     &C,Y",
    "         MEND",
    "         MACRO",
    "         U     &Q",
    "         GBLB  &H",
    "         GBLA  &G",
    "         LCLA  &I",
    "&I       SETA  &G",
    "         DC    &I",
    "         MEND",
];

#[test]
fn every_global_is_there_from_the_start() {
    let found = states(&case(&LIBRARY, &["* A", " NOP"]), 1);
    let first = concat!(
        r#"{"case":"C","reached":{"lines":["* A"," NOP"],"line":0,"steps":0},"#,
        r#""output":{"lines":[],"room":100,"sect":""},"levels":[],"shared":[0,false],"calls":0}"#
    );
    assert_eq!(found[0], first);
    let last = concat!(
        r#"{"case":"C","reached":{"lines":[],"line":2,"steps":2},"#,
        r#""output":{"lines":[" NOP","* A"],"room":91,"sect":""},"levels":[],"shared":[0,false],"calls":0}"#
    );
    assert_eq!(found[2..], [last]);
}

#[test]
fn a_caller_has_gone_on_to_the_line_after_its_call() {
    let found = states(&case(&LIBRARY, &["* A", "X        T     1", " NOP"]), 8);
    let eighth = concat!(
        r#"{"case":"C","reached":{"lines":[" NOP"],"line":2,"steps":8},"#,
        r#""output":{"lines":["X        CSECT","* A"],"room":81,"sect":"X"},"#,
        r#""levels":[{"macro":1,"line":0,"counter":4096,"number":2,"sect":"X","list":["","1' Z","Y"],"own":["1' Z",0]},"#,
        r#"{"macro":0,"line":6,"counter":4096,"number":1,"sect":"","list":["X","1"],"own":["X","1","D","1' Z"]}],"#,
        r#""shared":[-3,false],"calls":2}"#
    );
    assert_eq!(found[1], eighth);
    // 16 lines are reached in all: 3 open ones, 7 of T and 6 of U
    let last = concat!(
        r#"{"case":"C","reached":{"lines":[],"line":3,"steps":16},"#,
        r#""output":{"lines":[" NOP","         DC    3","X        CSECT","* A"],"room":59,"sect":"X"},"#,
        r#""levels":[],"shared":[-3,false],"calls":2}"#
    );
    assert_eq!(found[2..], [last]);
}

#[test]
fn lines_left_may_hold_any_byte() {
    let program = b"* A\n\"\\\0\xff\n".to_vec();
    let found = states(&Case { program, ..case(&LIBRARY, &[]) }, 1);
    assert_eq!(found.len(), 2);
    assert!(found[1].contains(r#""reached":{"lines":["\"\\\u0000\u00ff"],"line":1,"steps":1}"#), "{}", found[1]);
}

#[test]
fn a_refused_line_gives_no_state() {
    assert_eq!(states(&case(&LIBRARY, &["* A", " MEND"]), 1).len(), 2);
    assert_eq!(states(&case(&["         MACRO"], &["* A"]), 1).len(), 0);
}
