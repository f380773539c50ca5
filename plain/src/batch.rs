//! The batch format: see docs/BATCH.md.

use crate::{expand, translate};
use std::io::{self, BufRead, Read, Write};

/// One case: a library, a program, and the lengths of the two buffers lent to the expansion.
#[derive(Clone, Debug, PartialEq, Eq)]
pub struct Case {
    pub id: String,
    pub library: Vec<u8>,
    pub program: Vec<u8>,
    pub output: usize,
    pub workspace: usize,
}

/// The next case, or none at the input's end.
pub fn read_case(input: &mut impl BufRead) -> io::Result<Option<Case>> {
    let mut head = Vec::new();
    if input.read_until(b'\n', &mut head)? == 0 {
        return Ok(None);
    }
    let bad = || io::Error::new(io::ErrorKind::InvalidData, "a case starts: CASE id library program output workspace");
    let head = String::from_utf8(head).map_err(|_| bad())?;
    let words: Vec<&str> = head.split_whitespace().collect();
    let ["CASE", id, rest @ ..] = words.as_slice() else { return Err(bad()) };
    let numbers: Vec<usize> = rest.iter().map(|w| w.parse().map_err(|_| bad())).collect::<Result<_, _>>()?;
    let [library, program, output, workspace] = numbers[..] else { return Err(bad()) };
    let case = Case {
        id: id.to_string(),
        library: read_bytes(input, library)?,
        program: read_bytes(input, program)?,
        output,
        workspace,
    };
    if read_bytes(input, 1)? != b"\n" {
        return Err(io::Error::new(io::ErrorKind::InvalidData, "one newline follows the program's bytes"));
    }
    Ok(Some(case))
}

fn read_bytes(input: &mut impl BufRead, count: usize) -> io::Result<Vec<u8>> {
    let mut bytes = Vec::new();
    input.take(count as u64).read_to_end(&mut bytes)?;
    if bytes.len() < count {
        return Err(io::ErrorKind::UnexpectedEof.into());
    }
    Ok(bytes)
}

/// One case in the format that `read_case` reads.
pub fn write_case(case: &Case, to: &mut impl Write) -> io::Result<()> {
    let Case { id, library, program, output, workspace } = case;
    writeln!(to, "CASE {id} {} {} {output} {workspace}", library.len(), program.len())?;
    to.write_all(library)?;
    to.write_all(program)?;
    to.write_all(b"\n")
}

/// The answer to one case, as the format says.
pub fn answer(case: &Case) -> Vec<u8> {
    let id = &case.id;
    let library = match translate(&case.library) {
        Ok(library) => library,
        Err(fault) => return format!("ANSWER {id} LIBRARY {} {}\n", fault.number, fault.line).into_bytes(),
    };
    let mut output = vec![0; case.output];
    let mut workspace = vec![0; case.workspace];
    match expand(&library, &case.program, &mut output, &mut workspace) {
        Err(r) => {
            format!("ANSWER {id} REFUSED {} {} {} {}\n", r.number, r.open_line, r.body_line, r.steps).into_bytes()
        }
        Ok(done) => {
            let mut text = format!("ANSWER {id} OK {} {} {}\n", done.lines, done.steps, done.bytes).into_bytes();
            text.extend(&output[..done.bytes]);
            text.push(b'\n');
            text
        }
    }
}

/// Answers every case of the input, in order.
pub fn run(input: &mut impl BufRead, to: &mut impl Write) -> io::Result<()> {
    while let Some(case) = read_case(input)? {
        to.write_all(&answer(&case))?;
    }
    to.flush()
}

/// On how many cases two translations agree: those that both refuse alike, and those that both accept.
#[derive(Clone, Copy, Debug, Default, PartialEq, Eq)]
pub struct Agreement {
    pub refused: usize,
    pub decks: usize,
}

/// Holds the answers of `translate_batch` to the translation here: the same refusals with the same lines, and wherever the
/// library is accepted a deck of the length that its first bytes tell. The first case on which they differ is an error.
pub fn compare(cases: &mut impl BufRead, answers: &mut impl BufRead) -> io::Result<Agreement> {
    let mut agreement = Agreement::default();
    while let Some(case) = read_case(cases)? {
        let mut head = Vec::new();
        answers.read_until(b'\n', &mut head)?;
        let head = String::from_utf8_lossy(&head).into_owned();
        let differs = |said: &str| Err(io::Error::other(format!("case {}: {said}, but the answer is: {}", case.id, head.trim_end())));
        match translate(&case.library) {
            Err(fault) => {
                let said = format!("ANSWER {} LIBRARY {} {}", case.id, fault.number, fault.line);
                if head != format!("{said}\n") {
                    return differs(&said);
                }
                agreement.refused += 1;
            }
            Ok(_) => {
                let words: Vec<&str> = head.split_whitespace().collect();
                let ["ANSWER", id, "DECK", count] = words[..] else { return differs("accepted") };
                let Ok(count) = count.parse::<usize>() else { return differs("accepted") };
                let deck = read_bytes(answers, count + 1)?;
                let told = deck.first_chunk::<4>().map(|b| u32::from_be_bytes(*b) as usize + 4);
                if id != case.id || told != Some(count) || deck.last() != Some(&b'\n') {
                    return differs("accepted, with a whole deck");
                }
                agreement.decks += 1;
            }
        }
    }
    if !answers.fill_buf()?.is_empty() {
        return Err(io::Error::other("there are more answers than cases"));
    }
    Ok(agreement)
}
