//! The generator: the same seed gives the same cases, in the batch format; and what its cases reach.

use plain::batch::{answer, read_case};
use plain::gen::{cases, generate, PROFILES};
use plain::lines::ill_written;
use std::collections::BTreeSet;
use std::io::BufReader;

#[test]
fn the_same_seed_gives_the_same_bytes() {
    for profile in PROFILES {
        assert_eq!(generate(7, 40, profile), generate(7, 40, profile));
        assert_ne!(generate(7, 40, profile), generate(8, 40, profile));
    }
    assert_eq!(generate(1, 1, "none"), None);
}

#[test]
fn a_batch_reads_back_as_its_cases() {
    for profile in PROFILES {
        let batch = generate(3, 60, profile).unwrap();
        let mut input = BufReader::new(&batch[..]);
        for case in cases(3, 60, profile).unwrap() {
            assert_eq!(read_case(&mut input).unwrap(), Some(case));
        }
        assert_eq!(read_case(&mut input).unwrap(), None);
    }
}

#[test]
fn a_case_depends_on_its_index_alone() {
    for profile in PROFILES {
        let (few, many) = (cases(5, 3, profile).unwrap(), cases(5, 9, profile).unwrap());
        assert_eq!(few[..], many[..3]);
        assert_eq!(many[8].id, format!("{profile}-5-000008"));
    }
}

#[test]
fn rich_lines_keep_to_the_set_and_the_limit() {
    for case in cases(2, 300, "rich").unwrap() {
        for line in plain::lines::lines(&case.library).iter().chain(&plain::lines::lines(&case.program)) {
            assert!(!ill_written(line), "{}: {}", case.id, String::from_utf8_lossy(line));
        }
    }
}

/// Every refusal that a library or an expansion can have is reached, and successes too; no case panics.
#[test]
fn every_refusal_is_reached() {
    let mut reached = BTreeSet::new();
    for profile in PROFILES {
        for case in cases(7, if profile == "limits" { 900 } else { 150 }, profile).unwrap() {
            let text = String::from_utf8_lossy(&answer(&case)).into_owned();
            let words: Vec<&str> = text.split_whitespace().skip(2).take(2).collect();
            reached.insert(if words[0] == "OK" { "OK".to_string() } else { words.join(" ") });
        }
    }
    for number in 1..=5 {
        assert!(reached.contains(&format!("LIBRARY {number}")), "{number}: {reached:?}");
    }
    for number in [1, 5, 6, 7, 8, 9, 10, 11, 13, 14, 15] {
        assert!(reached.contains(&format!("REFUSED {number}")), "{number}: {reached:?}");
    }
    assert!(reached.contains("OK"));
}

/// Any bytes at all get an answer.
#[test]
fn any_bytes_get_an_answer() {
    for case in cases(9, 400, "bytes").unwrap().into_iter().chain(cases(9, 400, "tokens").unwrap()) {
        assert!(answer(&case).starts_with(b"ANSWER "));
        let swapped = plain::batch::Case { library: case.program.clone(), program: case.library.clone(), ..case };
        assert!(answer(&swapped).starts_with(b"ANSWER "));
    }
}
