//! An expander that follows document 01 straight over the source lines, searching names each time: slow, and short enough to be
//! checked against 01 by eye. A module for each section of 01; numbers like T14 or X5 are those of docs/READINGS.md.

pub mod batch;
pub mod calls;
pub mod definitions;
pub mod expanding;
pub mod faults;
pub mod gen;
pub mod grammar;
pub mod lines;
pub mod refusals;
pub mod states;
pub mod values;

pub use definitions::Library;
pub use expanding::expand;
pub use faults::translate;
pub use refusals::{Expanded, Fault, Refusal};

/// The output buffer that the program `expand` lends.
pub const OUTPUT: usize = 1 << 20;

/// What the program `expand` prints. 01: "It prints the output, then line and step counts"; a refusal "prints only" itself.
pub fn printed(library: &[u8], program: &[u8]) -> Vec<u8> {
    let library = match translate(library) {
        Ok(library) => library,
        Err(fault) => return format!("* LIBRARY REFUSED {} LINE {}\n", fault.number, fault.line).into_bytes(),
    };
    let mut output = vec![0; OUTPUT];
    match expand(&library, program, &mut output, &mut [0; expanding::WORKSPACE]) {
        Err(r) => format!("* REFUSED {} LINE {} STATEMENT {}\n", r.number, r.open_line, r.body_line).into_bytes(),
        Ok(done) => {
            output.truncate(done.bytes);
            output.extend(format!("* OK {} LINES {} STEPS\n", done.lines, done.steps).into_bytes());
            output
        }
    }
}
