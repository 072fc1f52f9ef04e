//! The limits of document 01 on both sides.

mod common;

use common::{joined, pass, refuse};
use oracle::generate::bounds::{self, Place, PLACES};
use oracle::random::Random;
use oracle::write::{equals, row, table, variable, ASSERTION, FALSE, TRUE};
use oracle::{check, check_fast};

fn seeds() -> impl Iterator<Item = Random> {
    (0..40).map(Random::new)
}

#[test]
fn words_4096_and_4097() {
    assert_eq!(bounds::words(4096).len(), 4096);
    assert_eq!(check(&bounds::words(4096)), pass(2, 2, 1));
    assert_eq!(check(&bounds::words(4097)), refuse(1, &[4097]));
    assert_eq!(check(&vec![0; 70_000]), refuse(1, &[70_000]));
}

#[test]
fn variables_32_and_33() {
    for mut random in seeds() {
        assert_eq!(check(&bounds::variables(&mut random, 32)).refusal_number(), 0);
        assert_eq!(check(&bounds::variables(&mut random, 33)), refuse(4, &[32]));
    }
    assert_eq!(check(&bounds::inputs(32)), refuse(8, &[16]));
    assert_eq!(check(&bounds::inputs(33)), refuse(4, &[32]));
}

#[test]
fn rows_64_and_65() {
    let held = |table_type| if table_type == 3 { 1 } else { 2 };
    for table_type in 1..=3 {
        let states = 64 * held(table_type);
        assert_eq!(check(&bounds::rows(table_type, 64)), pass(states, u64::from(states) * 63, 0));
        assert_eq!(check(&bounds::constant_rows(table_type, 64)), pass(held(table_type), 0, 0));
        assert_eq!(check(&bounds::constant_rows(table_type, 65)), refuse(4, &[130]));
    }
    // Two words a row in a condition table, four in the others.
    assert_eq!(check(&bounds::rows(3, 65)), refuse(4, &[2 + 1 + 128]));
    assert_eq!(check(&bounds::rows(1, 65)), refuse(4, &[2 + 1 + 256]));
    assert_eq!(check(&bounds::rows(2, 65)), refuse(4, &[2 + 1 + 256]));
}

#[test]
fn each_table_has_its_own_64_rows() {
    let words = |second: usize| {
        let rows = |count: usize| [row(255, 0), FALSE].repeat(count);
        let variables = [variable(3, 2, 0), variable(4, 2, 0)];
        joined(&[&variables, &[table(2, 0, 255)], &rows(64), &[table(2, 1, 255)], &rows(second)])
    };
    assert_eq!(check(&words(64)), pass(4, 0, 0));
    assert_eq!(check(&words(65)), refuse(4, &[2 + 129 + 1 + 128]));
}

#[test]
fn assertions_32_and_33() {
    assert_eq!(check(&[ASSERTION, TRUE].repeat(32)), pass(1, 0, 32));
    assert_eq!(check(&[ASSERTION, TRUE].repeat(33)), refuse(4, &[64]));
    // The last of 32 counts as well as the first, in both checks.
    let mut last_false = [ASSERTION, TRUE].repeat(32);
    last_false[63] = FALSE;
    assert_eq!(check(&last_false), refuse(13, &[31]));
    assert_eq!(check_fast(&last_false), refuse(13, &[31]));
    let last_broken = joined(&[&[variable(1, 2, 0)], &[ASSERTION, TRUE].repeat(31), &[ASSERTION, equals(0, 0)]]);
    assert_eq!(check(&last_broken), refuse(14, &[31, 0, 0, 1]));
    assert_eq!(check_fast(&last_broken), refuse(14, &[31, 0, 0, 1]));
}

#[test]
fn depth_16_and_17() {
    for mut random in seeds() {
        for place in PLACES {
            let states = if matches!(place, Place::Assertion | Place::ConditionRow) { 2 } else { 4 };
            let assertions = u32::from(place == Place::Assertion);
            let within = check(&bounds::depth(&mut random, place, 16));
            assert_eq!(within, pass(states, u64::from(states), assertions), "{place:?}");
            assert_eq!(check(&bounds::depth(&mut random, place, 17)).refusal_number(), 4, "{place:?}");
        }
    }
}

#[test]
fn states_65536_and_more() {
    for mut random in seeds().take(4) {
        let sizes = bounds::most_states(&mut random);
        let steps = 65_536 * u64::from(sizes[0] - 1);
        assert_eq!(check(&bounds::states(&sizes)), pass(65_536, steps, 0));
    }
    let many = [2; 16];
    assert_eq!(check(&bounds::states(&many)), pass(65_536, 65_536, 0));
    assert_eq!(check(&bounds::states(&[2; 17])), refuse(8, &[16]));
    // 65,534 and 65,540.
    assert_eq!(check(&bounds::states(&[2, 7, 31, 151])), pass(65_534, 65_534, 0));
    assert_eq!(check(&bounds::states(&[20, 29, 113])), refuse(8, &[2]));
    for mut random in seeds() {
        let answer = check(&bounds::states(&bounds::too_many_states(&mut random)));
        assert_eq!(answer.refusal_number(), 8);
    }
}

#[test]
fn sizes_at_both_ends() {
    for class in [1, 3, 4] {
        assert_eq!(check(&bounds::size(class, 256)).refusal_number(), 0);
        assert_eq!(check(&bounds::size(class, 257)), refuse(3, &[0]));
    }
    assert_eq!(check(&bounds::size(2, 255)), pass(255, 0, 0));
    assert_eq!(check(&bounds::size(2, 256)), refuse(3, &[0]));
    for class in 1..=4 {
        assert_eq!(check(&bounds::size(class, 2)).refusal_number(), 0);
        assert_eq!(check(&bounds::size(class, 1)), refuse(3, &[0]));
        assert_eq!(check(&bounds::size(class, 0)), refuse(3, &[0]));
        assert_eq!(check(&bounds::size(class, 4095)), refuse(3, &[0]));
    }
}

#[test]
fn mode_254_is_a_mode_and_255_is_every_mode() {
    let mode = variable(2, 255, 0);
    let words = |mode_field| [mode, table(1, 0, 0), row(mode_field, 254), FALSE];
    assert_eq!(check(&words(254)), pass(255, 0, 0));
    assert_eq!(check(&words(255)), pass(255, 0, 0));
    let words = [mode, table(1, 0, 0), row(254, 255), FALSE];
    assert_eq!(check(&words), refuse(3, &[2]));
}
