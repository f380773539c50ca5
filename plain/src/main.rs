//! `plain expand DIR`, `plain batch`, `plain compare CASES`, `plain states EVERY`, `plain gen SEED COUNT PROFILE`, `plain stats SEED COUNT [PROFILE]`:
//! see README.md.

use plain::{batch, gen, printed, states};
use std::io::{self, BufReader, BufWriter, Write};
use std::path::Path;
use std::process::ExitCode;

fn main() -> ExitCode {
    let words: Vec<String> = std::env::args().skip(1).collect();
    let words: Vec<&str> = words.iter().map(String::as_str).collect();
    let answer = match words.as_slice() {
        ["expand", folder] => expand_folder(Path::new(folder)),
        ["batch"] => batch::run(&mut BufReader::new(io::stdin().lock()), &mut BufWriter::new(io::stdout().lock())),
        ["compare", cases] => compare(Path::new(cases)),
        ["states", every] => every_state(every),
        ["gen", seed, count, profile] => generate(seed, count, profile),
        ["stats", seed, count] => stats(seed, count, &gen::PROFILES),
        ["stats", seed, count, profile] => stats(seed, count, &[profile]),
        _ => Err(usage()),
    };
    match answer {
        Ok(()) => ExitCode::SUCCESS,
        Err(error) => {
            eprintln!("plain: {error}");
            ExitCode::from(2)
        }
    }
}

fn usage() -> io::Error {
    let profiles = gen::PROFILES.join(" ");
    io::Error::other(format!(
        "usage: plain expand DIR | plain batch | plain compare CASES | plain states EVERY | plain gen SEED COUNT PROFILE | plain stats SEED COUNT [PROFILE]\nprofiles: {profiles}"
    ))
}

/// Holds the answers of `translate_batch` on standard input to the cases of a file.
fn compare(cases: &Path) -> io::Result<()> {
    let mut cases = BufReader::new(std::fs::File::open(cases)?);
    let batch::Agreement { refused, decks } = batch::compare(&mut cases, &mut BufReader::new(io::stdin().lock()))?;
    println!("{} cases agree: {refused} refused, {decks} decks", refused + decks);
    Ok(())
}

/// The states of the cases on standard input, after every so many lines.
fn every_state(every: &str) -> io::Result<()> {
    let every = every.parse().ok().filter(|&n| n > 0).ok_or_else(usage)?;
    states::run(every, &mut BufReader::new(io::stdin().lock()), &mut BufWriter::new(io::stdout().lock()))
}

/// Generated cases, in the batch format.
fn generate(seed: &str, count: &str, profile: &str) -> io::Result<()> {
    let (Ok(seed), Ok(count)) = (seed.parse(), count.parse()) else { return Err(usage()) };
    io::stdout().lock().write_all(&gen::generate(seed, count, profile).ok_or_else(usage)?)
}

/// What share of a profile's cases is answered how, in percent: libraries refused by number, expansions refused by number, successes.
fn stats(seed: &str, count: &str, profiles: &[&str]) -> io::Result<()> {
    let (Ok(seed), Ok(count)) = (seed.parse::<u64>(), count.parse::<usize>()) else { return Err(usage()) };
    for profile in profiles {
        let mut shares: std::collections::BTreeMap<String, usize> = std::collections::BTreeMap::new();
        for case in gen::cases(seed, count, profile).ok_or_else(usage)? {
            let answer = batch::answer(&case);
            let head = String::from_utf8_lossy(answer.split(|&b| b == b'\n').next().unwrap_or_default()).into_owned();
            let words: Vec<&str> = head.split(' ').collect();
            let key = match words.as_slice() {
                [_, _, "OK", ..] => "OK".to_string(),
                [_, _, what, number, ..] => format!("{what} {number:>2}"),
                _ => head.clone(),
            };
            *shares.entry(key).or_default() += 1;
        }
        println!("{profile}: {count} cases");
        for (key, cases) in shares {
            println!("  {key:<12} {cases:>7}  {:>6.2} %", 100.0 * cases as f64 / count as f64);
        }
    }
    Ok(())
}

/// 01: "The program `expand` reads files `library.mac` and `open.asm`".
fn expand_folder(folder: &Path) -> io::Result<()> {
    let read = |name: &str| {
        std::fs::read(folder.join(name)).map_err(|e| io::Error::new(e.kind(), format!("{}: {e}", folder.join(name).display())))
    };
    let (library, program) = (read("library.mac")?, read("open.asm")?);
    io::stdout().lock().write_all(&printed(&library, &program))
}
