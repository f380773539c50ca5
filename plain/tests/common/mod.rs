//! What the tests share: libraries from a few lines, and what translation and expansion say of them.
#![allow(dead_code)]

use plain::{expand, translate, Expanded, Fault, Refusal};

/// Lines, each with its newline.
pub fn text<S: AsRef<str>>(lines: &[S]) -> String {
    lines.iter().map(|l| format!("{}\n", l.as_ref())).collect()
}

/// A library of one macro T with parameters &P and &Q, keyword &K=D, and these body lines; the first body line is library line 3.
pub fn library(body: &[&str]) -> String {
    format!("{}{}{}", text(&["         MACRO", "&N       T     &P,&Q,&K=D"]), text(body), "         MEND\n")
}

/// Translation's answer: nothing, or number and line.
pub fn fault(library: &str) -> Option<(u8, usize)> {
    translate(library.as_bytes()).err().map(|Fault { number, line }| (number, line))
}

/// Expansion's answer and output, with buffers of these lengths.
pub fn run(library: &str, program: &str, output: usize, workspace: usize) -> Result<(Expanded, String), Refusal> {
    let library = translate(library.as_bytes()).expect("the library is accepted");
    let mut output = vec![0; output];
    let done = expand(&library, program.as_bytes(), &mut output, &mut vec![0; workspace])?;
    Ok((done, String::from_utf8(output[..done.bytes].to_vec()).expect("the output is of 01's bytes")))
}

/// The output where expansion succeeds; its refusal's number, open line and body line else.
pub fn output(library: &str, program: &str) -> Result<String, (u8, usize, usize)> {
    run(library, program, 1 << 20, 32_768).map(|r| r.1).map_err(|r| (r.number, r.open_line, r.body_line))
}

/// What the call `T` with this operand makes of a body.
pub fn called(body: &[&str], operand: &str) -> Result<String, (u8, usize, usize)> {
    output(&library(body), &format!("         T     {operand}\n"))
}

/// The value that a SETA, SETB or SETC operand gives, shown in text; refusal 8 or 7 by its number, a fault likewise.
pub fn value(kind: &str, operand: &str, call: &str) -> Result<String, u8> {
    let body = [
        &format!("         LCL{kind}  &V"),
        "         LCLC  &C",
        "         LCLA  &A",
        "         LCLB  &B",
        &format!("&V       SET{kind}  {operand}"),
        " DC '&V'",
    ];
    let library = library(&body);
    if let Some((number, line)) = fault(&library) {
        assert_eq!(line, 7, "only the SET line may be at fault: {operand}");
        return Err(number);
    }
    match output(&library, &format!("         T     {call}\n")) {
        Ok(line) => Ok(line.trim_start().trim_start_matches("DC    '").trim_end_matches("'\n").to_string()),
        Err((number, _, _)) => Err(number),
    }
}
