//! Output buffers from none to a little more than needed, and workspaces around the least.

use super::*;

/// A case whose output lines are known, and their lengths with newlines.
fn known(rng: &mut Random) -> (Case, Vec<usize>) {
    let library = lines_in(
        "
     MACRO
&N       M     &P
&N       DC    &P
COPIED   LINE
.*
     MEND
     MACRO
     O     &P
     NOP   &P
I        M     X&P
*        END
     MEND
",
    );
    let mut program = Vec::new();
    let mut lengths = Vec::new();
    for _ in 0..rng.between(0, 6) {
        let value = "V".repeat(rng.between(1, 40));
        match rng.below(4) {
            0 => {
                program.push(fixed("", "M", &value));
                lengths.extend([15 + value.len() + 1, 14]);
            }
            1 => {
                program.push(fixed("", "O", &value));
                lengths.extend([15 + value.len() + 1, 15 + value.len() + 2, 14, 13]);
            }
            2 => {
                program.push(String::new());
                lengths.push(1);
            }
            _ => {
                program.push(fixed("L", "NOP", &value));
                lengths.push(15 + value.len() + 1);
            }
        }
    }
    let library = file(rng, &library);
    let program = file(rng, &program);
    (case_of(library, program), lengths)
}

fn workspace(rng: &mut Random) -> usize {
    match rng.below(12) {
        0 => 0,
        1 => 100,
        2 => WORKSPACE - 1,
        3 => WORKSPACE + 1,
        4..=5 => 40_000,
        _ => WORKSPACE,
    }
}

pub fn case(rng: &mut Random) -> Case {
    let mut made;
    if rng.below(300) == 0 {
        made = limits::open_bytes(rng);
        made.output = rng.below(2) * OUTPUT;
    } else if rng.chance(60) {
        let lengths;
        (made, lengths) = known(rng);
        let lines = if rng.chance(50) { lengths.len() } else { rng.below(lengths.len() + 1) };
        let end: usize = lengths.iter().take(lines).sum();
        made.output = match rng.below(8) {
            0..=2 => end,
            3..=4 => end.saturating_sub(1),
            5 => end + 1,
            6 => rng.below(end + 1),
            _ => 0,
        };
    } else {
        made = rich::case(rng);
        made.output = match rng.below(6) {
            0 => 0,
            1 => rng.below(20),
            2..=3 => rng.below(400),
            _ => rng.below(3000),
        };
    }
    made.workspace = workspace(rng);
    made
}
