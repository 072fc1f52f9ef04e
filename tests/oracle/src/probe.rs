//! The probe: one call and its arguments as words, the answer and the lent list as lines.

use crate::bytes;
use crate::calls::{rows, values};
use crate::check::check;
use crate::simulate::{run, start, step};
use crate::sweep::check_fast;
use crate::text::{answer_line, join};

pub const START: u32 = 1;
pub const STEP: u32 = 2;
pub const RUN: u32 = 3;
pub const VALUES: u32 = 4;
pub const ROWS: u32 = 5;
pub const CHECK: u32 = 6;

pub const MOST_WORDS: usize = 5000;
pub const MOST_EVENTS: usize = 5000;
pub const MOST_TRACE: usize = 8000;
pub const MOST_BYTES: usize = 300;

/// Every element of a run's lent list before the call.
pub const TRACE_FILL: u32 = u32::MAX;
/// Every element of the lent list of values before the call.
pub const BYTE_FILL: u8 = 238;

/// What the probe prints for these bytes of standard input.
pub fn probe(input: &[u8]) -> String {
    let mut input = Input::new(input);
    let call = input.next();
    let set = input.set();
    match call {
        START => answer_line(&start(&set)) + "\n",
        STEP => answer_line(&step(&set, input.next(), input.next())) + "\n",
        RUN => probe_run(&set, &mut input),
        VALUES => probe_values(&set, &mut input),
        ROWS => probe_rows(&set, input.next()),
        CHECK => answer_line(&check(&set)) + "\n",
        _ => String::new(),
    }
}

/// What the probe prints for a check, worked out in two sweeps: for timing it on sets with millions of steps.
pub fn probe_check_fast(input: &[u8]) -> String {
    let mut input = Input::new(input);
    let _call = input.next();
    answer_line(&check_fast(&input.set())) + "\n"
}

fn probe_run(set: &[u32], input: &mut Input) -> String {
    let state = input.next();
    let place = input.next() as usize;
    let mut trace = vec![TRACE_FILL; (input.next() as usize).min(MOST_TRACE)];
    let answer = run(set, state, input.rest(MOST_EVENTS), &mut trace, place);
    format!("{}\n{}\n", answer_line(&answer), join(trace))
}

fn probe_values(set: &[u32], input: &mut Input) -> String {
    let state = input.next();
    let mut lent = vec![BYTE_FILL; (input.next() as usize).min(MOST_BYTES)];
    let answer = values(set, state, &mut lent);
    format!("{}\n{}\n", answer_line(&answer), join(lent))
}

fn probe_rows(set: &[u32], variable: u32) -> String {
    let part = rows(set, variable as usize);
    let place = if part.is_empty() { 0 } else { part_index(set, part) };
    format!("ROWS {} {}\n", place, part.len())
}

/// Where a part of a list starts in it: the part lies in the caller's words and is no copy.
pub fn part_index(whole: &[u32], part: &[u32]) -> usize {
    (part.as_ptr() as usize - whole.as_ptr() as usize) / std::mem::size_of::<u32>()
}

/// The words of the input; what is cut short counts as zeros.
struct Input {
    words: Vec<u32>,
    at: usize,
}

impl Input {
    fn new(input: &[u8]) -> Input {
        let mut whole = input.to_vec();
        whole.resize(input.len().next_multiple_of(4), 0);
        Input { words: bytes::from_bytes(&whole).collect(), at: 0 }
    }

    fn next(&mut self) -> u32 {
        let word = self.words.get(self.at).copied().unwrap_or(0);
        self.at += 1;
        word
    }

    /// The count of its words, then the set.
    fn set(&mut self) -> Vec<u32> {
        let count = (self.next() as usize).min(MOST_WORDS);
        (0..count).map(|_| self.next()).collect()
    }

    fn rest(&self, most: usize) -> &[u32] {
        let rest = self.words.get(self.at..).unwrap_or_default();
        &rest[..rest.len().min(most)]
    }
}
