//! Set A of document 01: its printed run, its altered lines that the host can show, and all its damaged bytes.

use host::{example, scr_check, scr_step};
use oracle::bytes::to_bytes;
use oracle::{host_check, host_step};

const GUARD_TO_0: u32 = 0xB000_0000;
const GUARD_TO_1: u32 = 0xB000_0001;
const REFUSED: u32 = 1 << 31;

fn set_a() -> Vec<u8> {
    to_bytes(&example::set_a().0)
}

#[test]
fn passes_and_runs_as_printed() {
    let (words, events) = example::set_a();
    let bytes = to_bytes(&words);
    assert_eq!(scr_check(&bytes), 0);
    let mut state = 0;
    let states: Vec<u32> = events
        .iter()
        .map(|&event| {
            state = scr_step(&bytes, state, event);
            state
        })
        .collect();
    assert_eq!(states, [1, 7, 10]);
}

#[test]
fn altered() {
    let bytes = set_a();
    assert_eq!(scr_step(&bytes, 11, GUARD_TO_0), 10);
    assert_eq!(scr_step(&bytes, 12, GUARD_TO_0), REFUSED + 15);
    assert_eq!(scr_step(&bytes, 1, GUARD_TO_1), REFUSED + 16);
    // The last word missing, or a part of it.
    assert_eq!(scr_check(&bytes[..112]), 2);
    assert_eq!(scr_step(&bytes[..112], 0, GUARD_TO_1), REFUSED + 2);
    for length in 113..116 {
        assert_eq!(scr_check(&bytes[..length]), 1);
        assert_eq!(scr_step(&bytes[..length], 0, GUARD_TO_1), REFUSED + 1);
    }
    assert_eq!(scr_check(&[]), 1);
    assert_eq!(scr_step(&[], 0, GUARD_TO_1), REFUSED + 1);
    assert_eq!(scr_check(&bytes[..4]), 0);
    // No Hold row for Spindle.
    let without_hold = [&bytes[..4 * 22], &bytes[4 * 24..]].concat();
    assert_eq!(scr_check(&without_hold), 10);
    assert_eq!(scr_step(&without_hold, 5, GUARD_TO_0), REFUSED + 10);
}

#[test]
fn every_state_and_event() {
    let bytes = set_a();
    for state in 0..=13 {
        for variable in 0..=4 {
            for value in 0..=3 {
                let event = GUARD_TO_0 | variable << 20 | value;
                assert_eq!(scr_step(&bytes, state, event), host_step(&bytes, state, event), "{state}, {event:08x}");
            }
        }
    }
}

#[test]
fn every_bit_altered() {
    for at in 0..set_a().len() {
        for bit in 0..8 {
            let mut bytes = set_a();
            bytes[at] ^= 1 << bit;
            assert_eq!(scr_check(&bytes), host_check(&bytes), "bit {bit} of byte {at}");
            let (answer, expected) = (scr_step(&bytes, 5, GUARD_TO_0), host_step(&bytes, 5, GUARD_TO_0));
            assert_eq!(answer, expected, "bit {bit} of byte {at}");
        }
    }
}
