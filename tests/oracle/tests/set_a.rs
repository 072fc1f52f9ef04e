//! Document 01's Set A, its run, and every line of "Set A, altered".

mod common;

use common::{pass, refuse, spliced, ASSERTION, SET_A, SPINDLE};
use oracle::write::{equals, input_event, row, variable, AT_T, TRUE};
use oracle::{bytes, check, check_fast, program, run, start, step, Answer};

const IDLE: u32 = 0;
const CUT: u32 = 1;
const HOLD: u32 = 2;

const GUARD: u32 = 0;
const START: u32 = 1;

/// Both checks must say the same.
fn verdict(words: &[u32]) -> Answer {
    assert_eq!(check(words), check_fast(words));
    check(words)
}

#[test]
fn set_a_passes() {
    assert_eq!(verdict(&SET_A), pass(12, 24, 1));
    assert_eq!(start(&SET_A), Answer::State(0));
}

#[test]
fn run_of_set_a() {
    let events = [0xB0000001, 0xB0100001, 0xB0000000];
    let mut trace = [99; 3];
    assert_eq!(run(&SET_A, 0, &events, &mut trace, 0), Answer::State(10));
    assert_eq!(trace, [1, 7, 10]);
    let words = [&SET_A[..], &events].concat();
    let output = String::from_utf8(program(&bytes::to_bytes(&words))).unwrap();
    assert_eq!(output, "PASS 12 24 1\n0 0 1 1\n1 1 1 7\n2 0 0 10\n");
}

#[test]
fn fourth_mode_row_overlaps() {
    let hold_to_cut = [row(HOLD, CUT), AT_T, equals(GUARD, 1), equals(START, 1)];
    let words = spliced(&SET_A, SPINDLE..SPINDLE, &hold_to_cut);
    assert_eq!(verdict(&words), refuse(12, &[10, 0, 1, 2, 2, 3]));
}

/// The Hold row of Spindle is its last.
fn without_hold_row() -> Vec<u32> {
    spliced(&SET_A, ASSERTION - 2..ASSERTION, &[])
}

#[test]
fn no_hold_row_for_spindle() {
    assert_eq!(verdict(&without_hold_row()), refuse(10, &[0, 8, 3]));
}

#[test]
fn step_into_a_gap() {
    assert_eq!(step(&without_hold_row(), 5, input_event(GUARD, 0)), refuse(10, &[1, 5, 3]));
}

#[test]
fn second_cut_row_for_spindle() {
    let words = spliced(&SET_A, ASSERTION..ASSERTION, &[row(CUT, 1), TRUE]);
    assert_eq!(verdict(&words), refuse(11, &[0, 4, 3, 0, 3]));
}

#[test]
fn start_row_when_true() {
    // The Start row is the first of the mode table; its d is the word at index 8.
    assert_eq!(SET_A[5..9], [row(IDLE, CUT), AT_T, equals(START, 1), equals(GUARD, 1)]);
    assert_eq!(verdict(&spliced(&SET_A, 8..9, &[TRUE])), refuse(14, &[0, 0, 1, 1]));
}

#[test]
fn spindle_tests_itself() {
    let words = spliced(&SET_A, SPINDLE + 2..SPINDLE + 3, &[equals(3, 1)]);
    assert_eq!(verdict(&words), refuse(9, &[3, 1]));
}

#[test]
fn single_steps() {
    assert_eq!(step(&SET_A, 11, input_event(GUARD, 0)), Answer::State(10));
    assert_eq!(step(&SET_A, 12, input_event(GUARD, 0)), refuse(15, &[12]));
    assert_eq!(step(&SET_A, 1, input_event(GUARD, 1)), refuse(16, &[0]));
}

#[test]
fn words_missing() {
    assert_eq!(verdict(&SET_A[..28]), refuse(2, &[28]));
    assert_eq!(verdict(&[]), refuse(1, &[0]));
    assert_eq!(verdict(&[0x11002000]), pass(2, 2, 0));
}

#[test]
fn two_and_three_inputs() {
    let two = [variable(1, 256, 0), variable(1, 256, 0)];
    assert_eq!(check_fast(&two), pass(65_536, 33_423_360, 0));
    assert_eq!(check(&two), pass(65_536, 33_423_360, 0));
    let three = [two[0], two[1], variable(1, 2, 0)];
    assert_eq!(verdict(&three), refuse(8, &[2]));
}
