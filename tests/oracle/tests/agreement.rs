//! The check in two sweeps agrees with the plain one, and reading with writing.

use oracle::generate::{checked_set, lawful, nth_set, wild};
use oracle::parse::parse;
use oracle::random::Random;
use oracle::{check, check_fast, write};

#[test]
fn both_checks_agree() {
    for index in 0..6000 {
        let words = nth_set(2024, index);
        assert_eq!(check_fast(&words), check(&words), "set {index}: {words:x?}");
    }
}

#[test]
fn both_checks_agree_where_the_order_matters() {
    for index in 0..2000 {
        let words = checked_set(&mut Random::of_item(2025, index));
        assert_eq!(check_fast(&words), check(&words), "set {index}: {words:x?}");
    }
}

#[test]
fn both_checks_agree_on_many_assertions() {
    let mut refused = [0; 22];
    for index in 0..2000 {
        let mut random = Random::of_item(31, index);
        let mut sheet = lawful::sheet(&mut random);
        let more = wild::sheet(&mut random).assertions;
        // Assertions of another set, as far as they make sense here.
        sheet.assertions.splice(0..0, more);
        let words = write::sheet(&sheet);
        let answer = check(&words);
        refused[answer.refusal_number() as usize] += 1;
        assert_eq!(check_fast(&words), answer, "set {index}: {words:x?}");
    }
    assert!(refused[13] > 100 && refused[14] > 100, "{refused:?}");
}

#[test]
fn what_is_written_is_read_again() {
    for index in 0..2000 {
        let mut random = Random::of_item(12, index);
        let sheet = if random.chance(50) { lawful::sheet(&mut random) } else { wild::sheet(&mut random) };
        let words = write::sheet(&sheet);
        if !words.is_empty() {
            assert_eq!(parse(&words).map(|parsed| parsed.sheet), Ok(sheet));
        }
    }
}
