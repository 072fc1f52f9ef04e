//! The library and the oracle on random inputs.

use host::inputs::{nth_check, nth_step};
use host::{scr_check, scr_step};
use oracle::{host_check, host_step};
use std::collections::BTreeMap;

const SEED: u64 = 1;
const INPUTS: u64 = 6000;
/// Added to the number of a refused step.
const REFUSED: u32 = 1 << 31;
/// How often each answer must come, so that none goes untested.
const LEAST: u32 = 20;

#[test]
fn checks() {
    let mut counts = BTreeMap::new();
    for index in 0..INPUTS {
        let bytes = nth_check(SEED, index);
        let answer = scr_check(&bytes);
        assert_eq!(answer, host_check(&bytes), "check {index} of seed {SEED}: {bytes:02x?}");
        *counts.entry(answer).or_insert(0) += 1;
    }
    assert!((0..=14).chain([21]).all(|answer| counts.get(&answer) >= Some(&LEAST)), "{counts:?}");
    assert_eq!(counts.len(), 16);
}

#[test]
fn steps() {
    let mut counts = BTreeMap::new();
    let mut states = 0;
    for index in 0..INPUTS {
        let (bytes, state, event) = nth_step(SEED, index);
        let answer = scr_step(&bytes, state, event);
        let expected = host_step(&bytes, state, event);
        assert_eq!(answer, expected, "step {index} of seed {SEED}: {bytes:02x?}, {state}, {event:08x}");
        if answer < REFUSED {
            states += 1;
        } else {
            *counts.entry(answer - REFUSED).or_insert(0) += 1;
        }
    }
    assert!(states >= LEAST);
    assert!((1..=12).chain(15..=16).chain([21]).all(|answer| counts.get(&answer) >= Some(&LEAST)), "{counts:?}");
    assert_eq!(counts.len(), 15);
}
