//! Nearly random bytes, and good cases with bytes and lines disturbed.

use super::*;

fn any(rng: &mut Random, count: usize) -> Vec<u8> {
    (0..count).map(|_| rng.next() as u8).collect()
}

/// Bytes of the set, with newlines and spaces often enough to make lines and fields.
fn of_set(rng: &mut Random, count: usize) -> Vec<u8> {
    let one = |rng: &mut Random| match rng.below(12) {
        0 => b'\n',
        1..=3 => b' ',
        4 => b'&',
        _ => BYTE_SET[rng.below(BYTE_SET.len())],
    };
    (0..count).map(|_| one(rng)).collect()
}

fn byte(rng: &mut Random) -> u8 {
    match rng.below(10) {
        0 => rng.next() as u8,
        1 => b'\n',
        2 => b' ',
        _ => BYTE_SET[rng.below(BYTE_SET.len())],
    }
}

fn mutate_bytes(rng: &mut Random, text: &mut Vec<u8>) {
    let at = rng.below(text.len());
    match rng.below(5) {
        0..=1 if at < text.len() => text[at] = byte(rng),
        2 if at < text.len() => {
            text.remove(at);
        }
        3 if at < text.len() => text[at] ^= 1 << rng.below(8),
        4 => {
            let end = (at + rng.below(12)).min(text.len());
            text.drain(at..end);
        }
        _ => text.insert(at, byte(rng)),
    }
}

fn mutate_lines(rng: &mut Random, text: &mut Vec<u8>) {
    let mut lines: Vec<Vec<u8>> = text.split(|b| *b == b'\n').map(<[u8]>::to_vec).collect();
    let (at, other) = (rng.below(lines.len()), rng.below(lines.len()));
    match rng.below(5) {
        0..=1 => lines.swap(at, other),
        2 => lines.insert(at, lines[other].clone()),
        3 => {
            lines.remove(at);
        }
        _ => {
            // The end of one line behind the start of another.
            let cut = rng.below(lines[at].len() + 1);
            let from = rng.below(lines[other].len() + 1);
            let tail = lines[other][from..].to_vec();
            lines[at].truncate(cut);
            lines[at].extend(tail);
        }
    }
    *text = lines.join(&b'\n');
}

fn mutate(rng: &mut Random, text: &mut Vec<u8>) {
    if rng.chance(60) {
        mutate_bytes(rng, text)
    } else {
        mutate_lines(rng, text)
    }
}

/// A case disturbed one to `most` times, three times in four in its library.
fn mutated(rng: &mut Random, mut case: Case, most: usize) -> Case {
    for _ in 0..rng.between(1, most) {
        if rng.chance(75) {
            mutate(rng, &mut case.library)
        } else {
            mutate(rng, &mut case.program)
        }
    }
    case
}

const SMALL: &str = "
     MACRO
&N       M     &P,&K=1
     LCLA  &A
     LCLB  &B
     LCLC  &C
     ACTR  9
&A       SETA  K'&P+1
&C       SETC  '&P'(1,1)
&B       SETB  (&A GT 1)
.X       NOP   &A,&P(1),&SYSLIST(2)
     AIF   (&B).Y
     AGO   .Y
.Y       MEND
";

pub fn case(rng: &mut Random) -> Case {
    match rng.below(20) {
        0 => {
            let (library, program) = (rng.below(300), rng.below(100));
            case_of(any(rng, library), any(rng, program))
        }
        1..=2 => {
            let (library, program) = (rng.below(200), rng.below(200));
            case_of(of_set(rng, library), of_set(rng, program))
        }
        3..=4 => {
            let count = rng.below(200);
            let program = if rng.chance(50) { of_set(rng, count) } else { any(rng, count) };
            case_of(SMALL.trim_start_matches('\n').as_bytes().to_vec(), program)
        }
        5..=10 => {
            let made = case_of(
                SMALL.trim_start_matches('\n').as_bytes().to_vec(),
                b"A        M     X,K=2\n         NOP\n         M     (A,B),C\n".to_vec(),
            );
            mutated(rng, made, 3)
        }
        _ => {
            let made = rich::case(rng);
            mutated(rng, made, 4)
        }
    }
}
