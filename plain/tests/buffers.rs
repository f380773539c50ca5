//! Every byte of output and workspace, after success and after each refusal (X17).

mod common;
use common::*;
use plain::{expand, translate};

/// A buffer in which each byte can be told from its neighbours and none is zero.
fn marked(len: usize) -> Vec<u8> {
    (0..len).map(|i| (i % 251) as u8 + 1).collect()
}

/// The refusal's number (0 for success), and both buffers afterwards.
fn after(library: &str, program: &str, output: usize, workspace: usize) -> (u8, usize, Vec<u8>, Vec<u8>) {
    let library = translate(library.as_bytes()).expect("accepted");
    let (mut out, mut work) = (marked(output), marked(workspace));
    match expand(&library, program.as_bytes(), &mut out, &mut work) {
        Ok(done) => (0, done.bytes, out, work),
        Err(refusal) => (refusal.number, 0, out, work),
    }
}

fn workspace_is_cleared(work: &[u8]) {
    assert!(work[..32_768].iter().all(|&b| b == 0));
    assert_eq!(work[32_768..], marked(work.len())[32_768..]);
}

#[test]
fn success_changes_only_the_bytes_written() {
    for workspace in [32_768, 32_769, 40_000] {
        let (number, bytes, out, work) = after("", "A\nB C D\n", 20, workspace);
        assert_eq!((number, bytes), (0, 8));
        assert_eq!(out[..8], *b"A\nB C D\n");
        assert_eq!(out[8..], marked(20)[8..]);
        workspace_is_cleared(&work);
    }
}

#[test]
fn every_refusal_zeroes_the_output_and_clears_the_workspace() {
    let spent = library(&[" ACTR 0", " NOP", " AGO .E", ".E ANOP"]);
    let deep = library(&[" NOP", " T"]);
    let many = library(&[" LCLA &I", ".A IN", "&I SETA &I+1", " AIF (&I LT 4000).A"]) + " MACRO\n IN\n MEND\n";
    let long = "*\n".repeat(33_000);
    let cases: [(u8, &str, &str); 11] = [
        (1, "", "*\n;\n"),
        (5, "", &long),
        (6, &spent, "*\n T (\n"),
        (7, &library(&[" NOP", " &P"]), " T\n"),
        (8, &library(&[" NOP", " DC &P(0)"]), " T\n"),
        (9, &spent, " T\n"),
        (10, &deep, " T\n"),
        (11, &many, "*\n T\n T\n T\n"),
        (14, "", "*\n*2345678901234567890123456789012345678901234567890123456789\n"),
        (15, "", "*\n MEND\n"),
        (14, "", "*2345678901234567890123456789012345678901234567890123456789\n"),
    ];
    for (number, library, program) in cases {
        let (given, _, out, work) = after(library, program, 50, 32_868);
        assert_eq!(given, number, "{program:.40}");
        assert!(out.iter().all(|&b| b == 0), "refusal {number}");
        workspace_is_cleared(&work);
    }
}

#[test]
fn a_short_workspace_stays_and_the_output_is_zeroed() {
    for workspace in [0, 1, 32_767] {
        let (number, _, out, work) = after("", "*\n", 50, workspace);
        assert_eq!(number, 13);
        assert!(out.iter().all(|&b| b == 0));
        assert_eq!(work, marked(workspace));
    }
}

#[test]
fn empty_buffers() {
    assert_eq!(after("", "", 0, 32_768).0, 0);
    assert_eq!(after("", "*\n", 0, 32_768).0, 14);
    assert_eq!(after("", "", 0, 0).0, 13);
}
