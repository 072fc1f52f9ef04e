//! What the tests share: Set A and short ways to say what is expected.
#![allow(dead_code)]

use oracle::{Answer, Refusal};

/// Guard, Start, Mode Idle/Cut/Hold, Spindle.
pub const SET_A: [u32; 29] = [
    0x11002000, 0x11002000, 0x12003000, 0x14002000, 0x21020200, 0x30000001, 0x81000000, 0x40100001, 0x40000001,
    0x30100002, 0x82000000, 0x40000001, 0x90000001, 0x30200000, 0x81000000, 0x40000001, 0x90000001, 0x23030200,
    0x30100001, 0x90000001, 0x30000000, 0x90000001, 0x30200000, 0x90000001, 0xA1000000, 0x70000000, 0x50000000,
    0x40300001, 0x40000001,
];

/// Index of the word after Set A's mode table.
pub const SPINDLE: usize = 17;
/// Index of the word after Set A's tables.
pub const ASSERTION: usize = 24;

pub fn pass(states: u32, steps: u64, assertions: u32) -> Answer {
    Answer::Pass { states, steps, assertions }
}

pub fn refuse(number: u32, carried: &[u64]) -> Answer {
    Answer::Refuse(Refusal { number, carried: carried.to_vec() })
}

/// A list with other words in place of a range.
pub fn spliced(words: &[u32], range: std::ops::Range<usize>, new: &[u32]) -> Vec<u32> {
    let mut words = words.to_vec();
    words.splice(range, new.iter().copied());
    words
}

pub fn joined(parts: &[&[u32]]) -> Vec<u32> {
    parts.concat()
}
