//! The probe: its input format and what it prints.

mod common;

use common::SET_A;
use oracle::bytes::to_bytes;
use oracle::generate::calls::Call;
use oracle::inputs::probe_input;
use oracle::probe;
use oracle::write::{input_event, variable};

fn printed(words: &[u32]) -> String {
    probe(&to_bytes(words))
}

fn set_a(call: Call) -> String {
    probe(&probe_input(&SET_A, &call))
}

#[test]
fn each_call() {
    assert_eq!(set_a(Call::Start), "STATE 0\n");
    assert_eq!(set_a(Call::Check), "PASS 12 24 1\n");
    assert_eq!(set_a(Call::Step { state: 11, event: input_event(0, 0) }), "STATE 10\n");
    assert_eq!(set_a(Call::Step { state: 12, event: 0 }), "REFUSE 15 12\n");
    assert_eq!(set_a(Call::Rows { variable: 3 }), "ROWS 17 7\n");
    assert_eq!(set_a(Call::Rows { variable: 0 }), "ROWS 0 0\n");
    assert_eq!(set_a(Call::Rows { variable: u32::MAX }), "ROWS 0 0\n");
    assert_eq!(set_a(Call::Values { state: 7, lent: 6 }), "VALUES 4\n1 1 1 1 238 238\n");
    assert_eq!(set_a(Call::Values { state: 7, lent: 3 }), "REFUSE 17 4\n238 238 238\n");
    assert_eq!(set_a(Call::Values { state: 7, lent: 0 }), "REFUSE 17 4\n\n");
    let events = vec![input_event(0, 1), input_event(1, 1), 0];
    let run = Call::Run { state: 0, events, lent: 5, place: 1 };
    assert_eq!(set_a(run), "REFUSE 16 2\n4294967295 1 7 4294967295 4294967295\n");
    let run = Call::Run { state: 4, events: vec![], lent: 0, place: u32::MAX };
    assert_eq!(set_a(run), "STATE 4\n\n");
}

#[test]
fn layout_of_the_input() {
    let x = variable(1, 2, 0);
    assert_eq!(printed(&[6, 1, x]), "PASS 2 2 0\n");
    assert_eq!(printed(&[2, 1, x, 0, input_event(0, 1)]), "STATE 1\n");
    assert_eq!(printed(&[3, 1, x, 1, 0, 2, input_event(0, 0), input_event(0, 1)]), "STATE 1\n0 1\n");
    assert_eq!(printed(&[4, 1, x, 1, 2]), "VALUES 1\n1 238\n");
    assert_eq!(printed(&[5, 1, x, 0]), "ROWS 0 0\n");
}

#[test]
fn input_cut_short_counts_as_zeros() {
    let x = variable(1, 2, 0);
    assert_eq!(printed(&[6, 2, x]), "REFUSE 2 1\n");
    assert_eq!(printed(&[6]), "REFUSE 1 0\n");
    assert_eq!(printed(&[2, 1, x]), "REFUSE 16 0\n");
    assert_eq!(printed(&[3, 1, x, 1]), "STATE 1\n\n");
    assert_eq!(printed(&[4, 1, x]), "REFUSE 17 1\n\n");
    assert_eq!(probe(&[6, 0, 0, 0, 1]), "REFUSE 2 0\n");
}

#[test]
fn numbers_above_their_caps() {
    let x = variable(1, 2, 0);
    assert_eq!(printed(&[6, u32::MAX, x]), "REFUSE 1 5000\n");
    let values = printed(&[4, 1, x, 0, 301]);
    assert_eq!(values.split_whitespace().count(), 2 + 300);
    let run = printed(&[3, 1, x, 0, 0, 8001]);
    assert_eq!(run.split_whitespace().count(), 2 + 8000);
    // 5,000 events are too many, whatever follows them.
    let many = [&[3, 1, x, 0, 0, 1][..], &[0; 6000]].concat();
    assert_eq!(printed(&many), "REFUSE 17 4097\n4294967295\n");
}
