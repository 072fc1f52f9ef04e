//! The sets for check tell wrong orders of the search, and wrong premises, from the right ones.

mod common;

use common::{joined, pass, refuse};
use oracle::check::typed_steps;
use oracle::generate::checked_set;
use oracle::generate::traits::{Search, Trait, TRAITS};
use oracle::random::Random;
use oracle::write::{equals, row, table, variable, ASSERTION, AT_T, FALSE, NOT, TRUE};
use oracle::{check, read};

fn traits(words: &[u32]) -> Vec<Trait> {
    let Ok(set) = read(words) else { return Vec::new() };
    let (search, answer) = (Search::of(&set), check(words));
    TRAITS.into_iter().filter(|&of| search.has(&answer, of)).collect()
}

#[test]
fn every_trait_comes_often() {
    let mut counts = [0; TRAITS.len()];
    for index in 0..3000 {
        let words = checked_set(&mut Random::of_item(5, index));
        if read(&words).is_ok_and(|set| typed_steps(&set) <= 20_000) {
            let found = traits(&words);
            TRAITS.iter().zip(&mut counts).for_each(|(of, count)| *count += usize::from(found.contains(of)));
        }
    }
    for (of, count) in TRAITS.iter().zip(counts) {
        assert!(count >= 25, "{of:?}: {count}");
    }
}

#[test]
fn an_overlap_comes_before_any_break() {
    // x from 0 to 1 breaks the assertion; x from 1 to 2 makes both rows of y hold.
    let rows = [row(255, 1), AT_T, equals(0, 2), equals(0, 1)];
    let assertion = [ASSERTION, NOT, equals(0, 1)];
    let words = joined(&[&[variable(1, 3, 0), variable(3, 2, 0), table(2, 1, 255)], &rows, &rows, &assertion]);
    assert_eq!(check(&words), refuse(12, &[1, 0, 2, 1, 0, 1]));
    assert_eq!(traits(&words), [Trait::EqualRows, Trait::BreakBeforeOverlap]);
}

#[test]
fn the_lowest_assertion_broken_is_shown() {
    let words = joined(&[&[variable(1, 3, 0)], &[ASSERTION, NOT, equals(0, 2)], &[ASSERTION, NOT, equals(0, 1)]]);
    assert_eq!(check(&words), refuse(14, &[0, 0, 0, 2]));
    assert_eq!(traits(&words), [Trait::LowerBreaksLater]);
}

/// An input x, a term y that stays 0, and a term z that x would set if y were 1.
const NEVER_SET: [u32; 11] = [
    variable(1, 2, 0),
    variable(3, 2, 0),
    variable(3, 2, 0),
    table(2, 1, 255),
    row(255, 1),
    FALSE,
    table(2, 2, 255),
    row(255, 1),
    AT_T,
    equals(0, 1),
    equals(1, 1),
];

#[test]
fn an_assertion_is_kept_under_itself_and_the_earlier_ones() {
    let words = joined(&[&NEVER_SET, &[ASSERTION, NOT, equals(1, 1)], &[ASSERTION, NOT, equals(2, 1)]]);
    assert_eq!(check(&words), pass(8, 8, 2));
    assert_eq!(traits(&words), [Trait::KeptByEarlier, Trait::OwnPremise]);
}

#[test]
fn later_assertions_are_no_premises() {
    let words = joined(&[&NEVER_SET, &[ASSERTION, NOT, equals(2, 1)], &[ASSERTION, NOT, equals(1, 1)]]);
    assert_eq!(check(&words), refuse(14, &[0, 2, 0, 1]));
    assert_eq!(traits(&words), [Trait::LaterNoPremise, Trait::Unreachable]);
}

#[test]
fn states_come_before_steps() {
    // x from 0 to 1 makes both rows of y hold; z has a gap where x is 1.
    let rows = [row(255, 1), AT_T, equals(0, 1), TRUE, row(255, 0), AT_T, equals(0, 1), TRUE];
    let variables = [variable(1, 2, 0), variable(3, 2, 0), variable(4, 2, 0)];
    let words = joined(&[&variables, &[table(2, 1, 255)], &rows, &[table(3, 2, 255), row(255, 0), equals(0, 0)]]);
    assert_eq!(check(&words), refuse(10, &[0, 1, 2]));
    assert_eq!(traits(&words), [Trait::StepBeforeState, Trait::Unreachable]);
}
