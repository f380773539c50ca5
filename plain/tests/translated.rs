//! The stored run of the proved program `translate_batch`, held to the translation here.

use plain::batch::{compare, Agreement};
use std::path::Path;

fn stored(name: &str) -> Vec<u8> {
    let path = Path::new(env!("CARGO_MANIFEST_DIR")).join("../crates/translate_batch").join(name);
    std::fs::read(path).expect("a stored file")
}

#[test]
fn the_stored_run_agrees() {
    let agreement = compare(&mut &stored("stdin")[..], &mut &stored("stdout")[..]).expect("they agree");
    assert!(agreement.refused >= 15 && agreement.decks >= 2, "{agreement:?}");
}

#[test]
fn another_number_is_seen() {
    let mut answers = stored("stdout");
    let at = answers.windows(9).position(|w| w == b" LIBRARY ").expect("a refusal") + 9;
    answers[at] ^= 1;
    assert!(compare(&mut &stored("stdin")[..], &mut &answers[..]).is_err());
    assert!(compare(&mut &stored("stdin")[..], &mut &b""[..]).is_err());
}

#[test]
fn a_deck_is_taken_by_its_length() {
    let case = b"CASE a 0 0 0 0\n\n";
    let deck = b"ANSWER a DECK 9\n\0\0\0\x05\x01\0\0\0\0\n";
    assert_eq!(compare(&mut &case[..], &mut &deck[..]).expect("a deck"), Agreement { refused: 0, decks: 1 });
    let short = b"ANSWER a DECK 9\n\0\0\0\x06\x01\0\0\0\0\n";
    assert!(compare(&mut &case[..], &mut &short[..]).is_err());
}
