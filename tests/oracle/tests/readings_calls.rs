//! The settled readings of documents 01 and 02 on step, run, values, check, rows, host and program, one by one.

mod common;

use common::{joined, pass, refuse, spliced, ASSERTION, SET_A, SPINDLE};
use oracle::bytes::to_bytes;
use oracle::probe::part_index;
use oracle::write::{
    equals, input_event, row, table, test, variable, AND, ASSERTION as ASSERT, AT_F, AT_T, FALSE, NOT, OR, TRUE,
};
use oracle::{check, host_check, host_step, program, rows, run, start, step, values, Answer};

const INPUT: u32 = 1;
const TERM: u32 = 3;
const EVERY: u32 = 255;

/// An input x of three values, and a condition variable y with these rows.
fn settled(rows: &[u32]) -> Vec<u32> {
    joined(&[&[variable(INPUT, 3, 0), variable(TERM, 2, 0), table(3, 1, 255)], rows])
}

/// y has a gap where x is 0, is fine where x is 1, and has an overlap where x is 2.
fn faulty() -> Vec<u32> {
    settled(&[row(EVERY, 1), NOT, equals(0, 0), row(EVERY, 1), equals(0, 2)])
}

fn to(value: u32) -> u32 {
    input_event(0, value)
}

// Reading 9: the order of a step.

#[test]
fn reading_9_words_then_state_then_event() {
    let enabled = input_event(0, 1);
    assert_eq!(step(&SET_A[..28], 99, 0), refuse(2, &[28]));
    assert_eq!(step(&SET_A, 99, 0), refuse(15, &[99]));
    assert_eq!(step(&SET_A, u32::MAX, enabled), refuse(15, &[u64::from(u32::MAX)]));
    assert_eq!(step(&SET_A, 0, 0), refuse(16, &[0]));
    // 16 before the gap of the old state.
    assert_eq!(step(&faulty(), 0, to(0)), refuse(16, &[0]));
    assert_eq!(step(&faulty(), 0, to(1)), refuse(10, &[0, 0, 1]));
    assert_eq!(step(&faulty(), 2, to(1)), refuse(11, &[0, 2, 1, 0, 1]));
    assert_eq!(step(&faulty(), 1, to(0)), refuse(10, &[1, 1, 1]));
    assert_eq!(step(&faulty(), 1, to(2)), refuse(11, &[1, 1, 1, 0, 1]));
}

/// An input, a condition variable y and an event variable z; both tables have a fault where x goes from 0 to 1. Where
/// `z_first` the table of y reads z, so that z comes first in dependency order.
fn two_faults(z_first: bool) -> Vec<u32> {
    let y_test = if z_first { equals(2, 1) } else { equals(0, 1) };
    let y = [table(3, 1, 255), row(EVERY, 0), AND, equals(0, 0), OR, TRUE, y_test];
    let z_row = [row(EVERY, 1), AT_T, equals(0, 1), TRUE];
    let variables = [variable(INPUT, 2, 0), variable(TERM, 2, 0), variable(TERM, 2, 0)];
    joined(&[&variables, &y, &[table(2, 2, 255)], &z_row, &z_row])
}

#[test]
fn reading_9_tables_of_a_step_in_dependency_order() {
    assert_eq!(step(&two_faults(false), 0, to(1)), refuse(10, &[1, 0, 1]));
    assert_eq!(step(&two_faults(true), 0, to(1)), refuse(12, &[0, 0, 1, 2, 0, 1]));
    // The old state comes before both: x is 1 there.
    assert_eq!(step(&two_faults(true), 1, to(0)), refuse(10, &[0, 1, 1]));
}

// Reading 10: the order of a run.

#[test]
fn reading_10_order_of_a_run() {
    let mut trace = [7; 3];
    let too_many = vec![0; 4097];
    assert_eq!(run(&SET_A[..28], 99, &too_many, &mut trace, 9), refuse(2, &[28]));
    assert_eq!(run(&SET_A, 99, &too_many, &mut trace, 9), refuse(17, &[4097]));
    assert_eq!(run(&SET_A, 99, &too_many[..4096], &mut trace, 0), refuse(17, &[4096]));
    assert_eq!(run(&SET_A, 99, &[0, 0, 0], &mut trace, 1), refuse(17, &[3]));
    assert_eq!(run(&SET_A, 99, &[0, 0, 0], &mut trace, 0), refuse(15, &[99]));
    assert_eq!(run(&SET_A, 0, &[0, 0, 0], &mut trace, 0), refuse(16, &[0]));
    assert_eq!(trace, [7; 3]);
}

#[test]
fn reading_10_a_run_without_events() {
    let mut trace = [7; 3];
    for place in [0, 3, 4, usize::MAX] {
        assert_eq!(run(&SET_A, 5, &[], &mut trace, place), Answer::State(5));
        assert_eq!(run(&SET_A, 12, &[], &mut trace, place), refuse(15, &[12]));
        // Unexamined: the state has a gap.
        assert_eq!(run(&faulty(), 0, &[], &mut trace, place), Answer::State(0));
    }
    assert_eq!(run(&SET_A, 5, &[], &mut [], 0), Answer::State(5));
    assert_eq!(trace, [7; 3]);
}

#[test]
fn place_in_the_lent_list() {
    let events = [input_event(0, 1), input_event(1, 1)];
    let mut trace = [99; 5];
    assert_eq!(run(&SET_A, 0, &events, &mut trace, 3), Answer::State(7));
    assert_eq!(trace, [99, 99, 99, 1, 7]);
    for place in [4, 5, 6, usize::MAX - 1, usize::MAX] {
        assert_eq!(run(&SET_A, 0, &events, &mut trace, place), refuse(17, &[2]));
    }
    assert_eq!(trace, [99, 99, 99, 1, 7]);
}

#[test]
fn a_refused_run_keeps_the_words_of_events_done() {
    let events = [input_event(0, 1), input_event(1, 1), input_event(1, 1), input_event(0, 0)];
    let mut trace = [99; 6];
    assert_eq!(run(&SET_A, 0, &events, &mut trace, 1), refuse(16, &[2]));
    assert_eq!(trace, [99, 1, 7, 99, 99, 99]);
}

#[test]
fn a_run_of_4096_events() {
    let events: Vec<u32> = (0..4096).map(|index| input_event(0, 1 - index % 2)).collect();
    let mut trace = vec![99; 4097];
    assert_eq!(run(&[variable(INPUT, 2, 0)], 0, &events, &mut trace, 1), Answer::State(0));
    assert_eq!(trace[0], 99);
    assert!((0..4096).all(|index| trace[index + 1] == 1 - index as u32 % 2));
}

// Reading 11: values and start.

#[test]
fn reading_11_order_of_values() {
    let mut lent = [238; 5];
    assert_eq!(values(&SET_A[..28], 99, &mut lent), refuse(2, &[28]));
    assert_eq!(values(&SET_A, 99, &mut lent[..3]), refuse(17, &[4]));
    assert_eq!(values(&SET_A, 99, &mut lent), refuse(15, &[99]));
    assert_eq!(values(&faulty(), 0, &mut lent[..1]), refuse(17, &[2]));
    assert_eq!(values(&faulty(), 0, &mut lent), refuse(10, &[0, 0, 1]));
    assert_eq!(values(&faulty(), 2, &mut lent), refuse(11, &[0, 2, 1, 0, 1]));
    assert_eq!(lent, [238; 5]);
    assert_eq!(values(&SET_A, 7, &mut lent), Answer::Values(4));
    assert_eq!(lent, [1, 1, 1, 1, 238]);
    assert_eq!(values(&SET_A, 10, &mut lent[..4]), Answer::Values(4));
    assert_eq!(lent, [0, 1, 2, 0, 238]);
    assert_eq!(values(&[ASSERT, FALSE], 0, &mut []), Answer::Values(0));
}

#[test]
fn a_value_of_255_fills_its_byte() {
    let mut lent = [1; 1];
    assert_eq!(values(&[variable(INPUT, 256, 0)], 255, &mut lent), Answer::Values(1));
    assert_eq!(lent, [255]);
}

#[test]
fn reading_11_start_examines_nothing() {
    assert_eq!(start(&faulty()), Answer::State(0));
    assert_eq!(start(&[variable(INPUT, 3, 2), variable(INPUT, 4, 3)]), Answer::State(11));
    assert_eq!(start(&SET_A[..28]), refuse(2, &[28]));
    assert_eq!(start(&[variable(TERM, 2, 0)]), refuse(6, &[0]));
}

// Reading 12: event words that are not enabled, and the sides of a run.

#[test]
fn reading_12_words_that_are_not_enabled() {
    let good = input_event(0, 1);
    assert_eq!(step(&SET_A, 0, good), Answer::State(1));
    let mut bad = vec![
        input_event(0, 0),   // the value it has
        input_event(0, 2),   // past its range
        input_event(2, 1),   // a mode class
        input_event(3, 1),   // a controlled variable
        input_event(4, 1),   // no variable
        input_event(255, 1), // no variable
    ];
    bad.extend((0..16).filter(|&kind| kind != 11).map(|kind| kind << 28 | good & 0x0FFF_FFFF));
    bad.extend((8..20).map(|bit| good | 1 << bit));
    for word in bad {
        assert_eq!(step(&SET_A, 0, word), refuse(16, &[0]), "{word:x}");
        let events = [input_event(1, 1), word];
        assert_eq!(run(&SET_A, 0, &events, &mut [0; 2], 0), refuse(16, &[1]), "{word:x}");
    }
}

#[test]
fn reading_12_side_0_comes_with_event_0_only() {
    let mut trace = [99; 3];
    assert_eq!(run(&faulty(), 0, &[to(1), to(0)], &mut trace, 0), refuse(10, &[0, 0, 1]));
    assert_eq!(trace, [99; 3]);
    // x goes 1, 0: the state after has the gap; the state before is carried.
    let stays = settled(&[row(EVERY, 1), NOT, equals(0, 0)]);
    assert_eq!(run(&stays, 1, &[to(2), to(0), to(1)], &mut trace, 0), refuse(10, &[1, 2, 1]));
    assert_eq!(trace, [2, 99, 99]);
}

// Reading 13: the order of check.

/// Two condition variables y and z over x; z is faulty at the lower state, y at the higher one.
#[test]
fn reading_13_states_before_tables() {
    let variables = [variable(INPUT, 3, 0), variable(TERM, 2, 0), variable(TERM, 2, 0)];
    let y = [table(3, 1, 255), row(EVERY, 0), test(0, 1, 1)];
    let z = [table(3, 2, 255), row(EVERY, 0), NOT, equals(0, 1)];
    assert_eq!(check(&joined(&[&variables, &y, &z])), refuse(10, &[0, 1, 2]));
}

#[test]
fn reading_13_condition_tables_in_dependency_order() {
    let variables = [variable(INPUT, 2, 0), variable(TERM, 2, 0), variable(TERM, 2, 0)];
    let gap = |number, first| [table(3, number, 255), row(EVERY, 0), AND, FALSE, first];
    let by_number = joined(&[&variables, &gap(1, TRUE), &gap(2, TRUE)]);
    assert_eq!(check(&by_number), refuse(10, &[0, 0, 1]));
    let z_first = joined(&[&variables, &gap(1, equals(2, 0)), &gap(2, TRUE)]);
    assert_eq!(check(&z_first), refuse(10, &[0, 0, 2]));
    // Gap and overlap as they come: the overlap of the table that comes first, be it the second in the words.
    let overlap = |number| [table(3, number, 255), row(EVERY, 0), TRUE, row(EVERY, 1), FALSE, row(EVERY, 1), TRUE];
    assert_eq!(check(&joined(&[&variables, &overlap(1), &gap(2, TRUE)])), refuse(11, &[0, 0, 1, 0, 2]));
    assert_eq!(check(&joined(&[&variables, &gap(1, equals(2, 0)), &overlap(2)])), refuse(11, &[0, 0, 2, 0, 2]));
}

#[test]
fn reading_13_all_states_before_any_step() {
    // An overlap of z at step (0, x to 1), a gap of y in state 5 alone.
    let variables = [variable(INPUT, 3, 0), variable(TERM, 2, 0), variable(TERM, 2, 0)];
    let y = [table(3, 1, 255), row(EVERY, 0), NOT, AND, equals(0, 2), equals(2, 1)];
    let twice = [row(EVERY, 1), AT_T, equals(0, 1), TRUE].repeat(2);
    let words = joined(&[&variables, &y, &[table(2, 2, 255)], &twice]);
    assert_eq!(check(&words), refuse(10, &[0, 5, 1]));
    let without_gap = spliced(&words, 5..9, &[TRUE]);
    assert_eq!(check(&without_gap), refuse(12, &[0, 0, 1, 2, 0, 1]));
}

#[test]
fn reading_13_steps_by_state_variable_value_and_table() {
    let twice = |c: &[u32]| joined(&[&[row(EVERY, 1), AT_T], c, &[TRUE]]).repeat(2);
    let overlap = |number, c: &[u32]| joined(&[&[table(2, number, 255)], &twice(c)]);
    let variables = [variable(INPUT, 3, 0), variable(INPUT, 3, 0), variable(TERM, 2, 0), variable(TERM, 2, 0)];
    let first = |c2: &[u32], c3: &[u32]| check(&joined(&[&variables, &overlap(2, c2), &overlap(3, c3)]));
    assert_eq!(first(&[equals(0, 2)], &[equals(0, 1)]), refuse(12, &[0, 0, 1, 3, 0, 1]));
    assert_eq!(first(&[equals(1, 1)], &[equals(0, 2)]), refuse(12, &[0, 0, 2, 3, 0, 1]));
    assert_eq!(first(&[equals(0, 1)], &[equals(0, 1)]), refuse(12, &[0, 0, 1, 2, 0, 1]));
    assert_eq!(first(&[equals(1, 2)], &[equals(1, 1)]), refuse(12, &[0, 1, 1, 3, 0, 1]));
    assert_eq!(first(&[equals(0, 0)], &[equals(1, 0)]), refuse(12, &[1, 0, 0, 2, 0, 1]));
    // The table of 2 reads 3, which comes before it for that.
    assert_eq!(first(&[AND, equals(0, 1), test(3, 1, 1)], &[equals(0, 1)]), refuse(12, &[0, 0, 1, 3, 0, 1]));
}

#[test]
fn reading_13_assertion_by_assertion() {
    let x = variable(INPUT, 2, 0);
    let assertions = |list: &[u32]| check(&joined(&[&[x], list]));
    // Assertion 0 is broken by a step, assertion 1 false initially.
    assert_eq!(assertions(&[ASSERT, equals(0, 0), ASSERT, equals(0, 1)]), refuse(14, &[0, 0, 0, 1]));
    assert_eq!(assertions(&[ASSERT, TRUE, ASSERT, equals(0, 1)]), refuse(13, &[1]));
    assert_eq!(assertions(&[ASSERT, equals(0, 1), ASSERT, equals(0, 0)]), refuse(13, &[0]));
    assert_eq!(assertions(&[ASSERT, TRUE, ASSERT, equals(0, 0)]), refuse(14, &[1, 0, 0, 1]));
}

/// An input x, and a latch y that is set when x rises and never cleared.
fn latch(assertions: &[u32]) -> Vec<u32> {
    let variables = [variable(INPUT, 2, 0), variable(TERM, 2, 0)];
    joined(&[&variables, &[table(2, 1, 255), row(EVERY, 1), AT_T, equals(0, 1), TRUE], assertions])
}

#[test]
fn an_assertion_kept_by_every_step() {
    // Where x is 1 so is y: broken from state 1 only, where it is false already.
    let follows = [ASSERT, OR, NOT, equals(0, 1), equals(1, 1)];
    assert_eq!(check(&latch(&follows)), pass(4, 4, 1));
    assert_eq!(check(&latch(&joined(&[&follows, &[ASSERT, equals(1, 1)]]))), refuse(13, &[1]));
    assert_eq!(check(&latch(&joined(&[&follows, &[ASSERT, equals(1, 0)]]))), refuse(14, &[1, 0, 0, 1]));
}

#[test]
fn a_premise_can_be_needed() {
    // Modes of y: 0, 1, 2. From 1 it goes to 2; nothing leads to 1. That y isn't 2 needs that y isn't 1.
    let variables = [variable(INPUT, 2, 0), variable(TERM, 3, 0)];
    let rows = [table(2, 1, 255), row(EVERY, 2), AT_T, equals(0, 1), equals(1, 1)];
    let not_1 = [ASSERT, NOT, equals(1, 1)];
    let not_2 = [ASSERT, NOT, equals(1, 2)];
    assert_eq!(check(&joined(&[&variables, &rows, &not_1, &not_2])), pass(6, 6, 2));
    assert_eq!(check(&joined(&[&variables, &rows, &not_2])), refuse(14, &[0, 2, 0, 1]));
    assert_eq!(check(&joined(&[&variables, &rows, &not_2, &not_1])), refuse(14, &[0, 2, 0, 1]));
}

#[test]
fn reading_13_steps_are_counted_by_the_product() {
    let words =
        [variable(INPUT, 3, 0), variable(INPUT, 5, 0), variable(TERM, 7, 0), table(2, 2, 255), row(255, 0), FALSE];
    assert_eq!(check(&words), pass(105, 630, 0));
}

// Modes: of the past in types 1 and 2, of the state after in type 3.

#[test]
fn modes_before_and_after() {
    // Set A: the event of a mode row needs the mode before; Spindle follows the mode after.
    assert_eq!(step(&SET_A, 1, input_event(1, 1)), Answer::State(7));
    // A term set to 1 when Start rises in Idle: the mode before counts, though the mode after is Cut.
    let words = spliced(&SET_A, 4..4, &[variable(TERM, 2, 0)]);
    let added = [table(2, 4, 2), row(0, 1), AT_T, equals(1, 1), TRUE];
    let words = spliced(&words, ASSERTION + 1..ASSERTION + 1, &added);
    assert_eq!(check(&words), pass(24, 48, 1));
    assert_eq!(step(&words, 1, input_event(1, 1)), Answer::State(7 + 12));
    assert_eq!(step(&words, 5, input_event(1, 1)), Answer::State(7));
}

// Reading 14: the rows of a table.

#[test]
fn reading_14_the_rows_of_a_table() {
    assert_eq!(rows(&SET_A, 2), &SET_A[4..SPINDLE]);
    assert_eq!(rows(&SET_A, 3), &SET_A[SPINDLE..ASSERTION]);
    assert_eq!(part_index(&SET_A, rows(&SET_A, 3)), SPINDLE);
    assert_eq!(rows(&SET_A[..ASSERTION], 3), &SET_A[SPINDLE..ASSERTION]);
    // By the variable defined, not by place.
    for variable in [0, 1, 4, 255, usize::MAX] {
        assert!(rows(&SET_A, variable).is_empty());
    }
    let variables = [variable(TERM, 2, 0), variable(INPUT, 2, 0), variable(TERM, 2, 0)];
    let always = |number| [table(3, number, 255), row(EVERY, 0), TRUE];
    let apart = joined(&[&variables, &always(0), &always(2)]);
    assert_eq!(check(&apart), pass(2, 2, 0));
    assert_eq!(part_index(&apart, rows(&apart, 0)), 3);
    assert!(rows(&apart, 1).is_empty());
    assert_eq!(part_index(&apart, rows(&apart, 2)), 6);
    // A set that doesn't read has none; one that reads but is refused by check has.
    assert!(rows(&SET_A[..28], 2).is_empty());
    assert_eq!(rows(&faulty(), 1), &faulty()[2..]);
}

// Document 02, request 2.7: refusal 21 is one of reading, in every call.

#[test]
fn tables_out_of_number_order_in_every_call() {
    let swapped = joined(&[&SET_A[..4], &SET_A[SPINDLE..ASSERTION], &SET_A[4..SPINDLE], &SET_A[ASSERTION..]]);
    let refused = refuse(21, &[11]);
    assert_eq!(check(&swapped), refused);
    assert_eq!(start(&swapped), refused);
    // Before the events and the room for them, the state and the event.
    let (mut trace, mut lent) = ([7; 3], [238; 5]);
    assert_eq!(step(&swapped, 0, input_event(0, 1)), refused);
    assert_eq!(step(&swapped, 99, 0), refused);
    assert_eq!(run(&swapped, 0, &[input_event(0, 1)], &mut trace, 0), refused);
    assert_eq!(run(&swapped, 0, &[], &mut trace, 9), refused);
    assert_eq!(run(&swapped, 99, &[0; 4097], &mut trace, 9), refused);
    assert_eq!(values(&swapped, 0, &mut lent), refused);
    assert_eq!(values(&swapped, 99, &mut lent[..3]), refused);
    assert_eq!((trace, lent), ([7; 3], [238; 5]));
    assert!((0..5).all(|variable| rows(&swapped, variable).is_empty()));
    assert_eq!(host_check(&to_bytes(&swapped)), 21);
    assert_eq!(host_step(&to_bytes(&swapped), 0, input_event(0, 1)), 0x8000_0000 + 21);
    assert_eq!(host_step(&to_bytes(&swapped), 99, 0), 0x8000_0000 + 21);
    assert_eq!(printed(&to_bytes(&swapped)), "REFUSE 21 11\n");
    assert_eq!(printed(&to_bytes(&joined(&[&swapped, &[to(1), to(0)]]))), "REFUSE 21 11\n");
}

// Reading 15: the host.

#[test]
fn reading_15_lengths_of_the_host() {
    let bytes = to_bytes(&SET_A);
    assert_eq!(host_check(&bytes), 0);
    assert_eq!(host_check(&[]), 1);
    for cut in 1..4 {
        assert_eq!(host_check(&bytes[..bytes.len() - cut]), 1);
        assert_eq!(host_step(&bytes[..bytes.len() - cut], 0, input_event(0, 1)), 0x8000_0001);
    }
    assert_eq!(host_check(&bytes[..112]), 2);
    let longest = to_bytes(&oracle::generate::bounds::words(4096));
    assert_eq!(host_check(&longest), 0);
    assert_eq!(host_check(&to_bytes(&oracle::generate::bounds::words(4097))), 1);
    assert_eq!(host_check(&[&longest[..], &[0]].concat()), 1);
    // Zeros beyond the words copied are no words of the set.
    assert_eq!(host_check(&to_bytes(&[variable(INPUT, 2, 0)])), 0);
    assert_eq!(host_check(&to_bytes(&[variable(INPUT, 2, 0), 0])), 2);
}

#[test]
fn answers_of_the_host() {
    let bytes = to_bytes(&SET_A);
    assert_eq!(host_step(&bytes, 11, input_event(0, 0)), 10);
    assert_eq!(host_step(&bytes, 12, input_event(0, 0)), 0x8000_0000 + 15);
    assert_eq!(host_step(&bytes, 1, input_event(0, 1)), 0x8000_0000 + 16);
    assert_eq!(host_step(&[], 0, 0), 0x8000_0001);
    assert_eq!(host_check(&to_bytes(&faulty())), 10);
    assert_eq!(host_step(&to_bytes(&faulty()), 1, to(2)), 0x8000_0000 + 11);
    assert_eq!(host_step(&to_bytes(&faulty()), 1, to(2).swap_bytes()), 0x8000_0000 + 16);
}

// Reading 16: the program.

fn printed(bytes: &[u8]) -> String {
    String::from_utf8(program(bytes)).unwrap()
}

#[test]
fn reading_16_a_broken_last_word_is_one_more() {
    let x = variable(INPUT, 2, 0);
    assert_eq!(printed(&to_bytes(&[x])), "PASS 2 2 0\n");
    for broken in 1..4 {
        let input = to_bytes(&[x, x]);
        assert_eq!(printed(&input[..4 + broken]), "REFUSE 2 1\n");
        let with_event = to_bytes(&[x, to(1), to(0)]);
        assert_eq!(printed(&with_event[..8 + broken]), "PASS 2 2 0\n0 0 1 1\nREFUSE 16 1\n");
    }
    assert_eq!(printed(&[]), "REFUSE 1 0\n");
    assert_eq!(printed(&[1]), "REFUSE 2 0\n");
}

#[test]
fn reading_16_a_refused_run_and_a_refused_set() {
    let x = variable(INPUT, 2, 0);
    let lines = "PASS 2 2 0\n0 0 1 1\n1 0 0 0\nREFUSE 16 2\n";
    assert_eq!(printed(&to_bytes(&[x, to(1), to(0), to(0), to(1)])), lines);
    assert_eq!(printed(&to_bytes(&joined(&[&faulty(), &[to(1), to(2)]]))), "REFUSE 10 0 0 1\n");
    assert_eq!(printed(&to_bytes(&[to(1), to(0)])), "REFUSE 1 0\n");
}

#[test]
fn reading_16_the_first_word_of_kind_11_ends_the_set() {
    let x = variable(INPUT, 2, 0);
    // Later words are events of whatever kind, though they would make sense in the set.
    assert_eq!(printed(&to_bytes(&[x, to(1), x])), "PASS 2 2 0\n0 0 1 1\nREFUSE 16 1\n");
    assert_eq!(printed(&to_bytes(&[x, ASSERT, to(1), TRUE])), "REFUSE 2 2\n");
    // Spare bits don't alter the kind.
    assert_eq!(printed(&to_bytes(&[x, to(1) | 1 << 8])), "PASS 2 2 0\nREFUSE 16 0\n");
}

#[test]
fn the_program_reads_8192_words() {
    let x = variable(INPUT, 2, 0);
    let alternating = |count: usize| (0..count).map(|index| to(1 - index as u32 % 2)).collect::<Vec<u32>>();
    let most = printed(&to_bytes(&joined(&[&[x], &alternating(4096)])));
    assert_eq!(most.lines().count(), 4097);
    assert_eq!(most.lines().last(), Some("4095 0 0 0"));
    let over = printed(&to_bytes(&joined(&[&[x], &alternating(4097)])));
    assert_eq!(over, "PASS 2 2 0\nREFUSE 17 4097\n");
    // A set of 4,096 words and 4,096 events; the 8,193rd word is not read, nor is a broken one there.
    let full = joined(&[&oracle::generate::bounds::words(4096), &alternating(4096)]);
    assert_eq!(printed(&to_bytes(&full)).lines().last(), Some("4095 0 0 0"));
    let beyond = [to_bytes(&full), vec![1, 2, 3, 4, 5]].concat();
    assert_eq!(printed(&beyond).lines().last(), Some("4095 0 0 0"));
    assert_eq!(printed(&to_bytes(&[x; 9000])), "REFUSE 1 8192\n");
    assert_eq!(printed(&to_bytes(&[x; 4097])), "REFUSE 1 4097\n");
    assert_eq!(printed(&vec![0; 32_769]), "REFUSE 1 8192\n");
}

#[test]
fn changes_by_document_01() {
    let x = variable(INPUT, 3, 0);
    let set = |event: &[u32]| joined(&[&[x, variable(TERM, 2, 0), table(2, 1, 255), row(EVERY, 1)], event]);
    let fires = |event: &[u32], from, value| step(&set(event), from, to(value)) == Answer::State(value + 3);
    // @T needs falsity before and truth after.
    assert!(fires(&[AT_T, test(0, 1, 1), TRUE], 2, 0));
    assert!(!fires(&[AT_T, test(0, 1, 1), TRUE], 0, 1));
    assert!(!fires(&[AT_T, equals(0, 1), TRUE], 1, 2));
    // @F needs truth before and falsity after.
    assert!(fires(&[AT_F, test(0, 1, 1), TRUE], 0, 2));
    assert!(!fires(&[AT_F, test(0, 1, 1), TRUE], 0, 1));
    assert!(!fires(&[AT_F, equals(0, 0), TRUE], 1, 2));
    // d is judged before the step.
    assert!(fires(&[AT_T, equals(0, 1), equals(0, 0)], 0, 1));
    assert!(!fires(&[AT_T, equals(0, 1), equals(0, 1)], 0, 1));
    // Either of two.
    assert!(fires(&[OR, AT_T, equals(0, 2), TRUE, AT_T, equals(0, 1), TRUE], 0, 1));
}
