//! The program: words from standard input, the set checked and, if it passes, its events run.

use crate::answer::Answer;
use crate::bytes;
use crate::check::check;
use crate::limits;
use crate::simulate::{run, start};
use crate::text;
use crate::word;

/// Exactly what the program prints for these bytes of standard input.
pub fn program(input: &[u8]) -> Vec<u8> {
    let words = input_words(input);
    let events_from = words.iter().position(|&word| word::kind(word) == word::INPUT_EVENT).unwrap_or(words.len());
    let (set, events) = words.split_at(events_from);
    let verdict = check(set);
    let mut lines = vec![text::answer_line(&verdict)];
    if verdict.refusal_number() == 0 {
        lines.extend(run_lines(set, events));
    }
    lines.iter().flat_map(|line| format!("{line}\n").into_bytes()).collect()
}

/// The first 8,192 words; a broken last word is one more, of value 0.
fn input_words(input: &[u8]) -> Vec<u32> {
    let mut words: Vec<u32> = bytes::from_bytes(input).collect();
    if !input.len().is_multiple_of(4) {
        words.push(0);
    }
    words.truncate(limits::PROGRAM_WORDS);
    words
}

/// A line for each event done, then the refusal if there is one.
fn run_lines(set: &[u32], events: &[u32]) -> Vec<String> {
    let Answer::State(initial) = start(set) else { return Vec::new() };
    // No state has this number, so it marks the elements that the run left alone.
    let mut trace = vec![u32::MAX; events.len()];
    let answer = run(set, initial, events, &mut trace, 0);
    let done = trace.iter().zip(events).enumerate().take_while(|(_, (&state, _))| state != u32::MAX);
    let mut lines: Vec<String> = done.map(|(index, (&state, &event))| event_line(index, event, state)).collect();
    if answer.refusal_number() != 0 {
        lines.push(text::answer_line(&answer));
    }
    lines
}

fn event_line(index: usize, event: u32, state: u32) -> String {
    let (variable, value) = (word::field(event, 27, 20), word::field(event, 7, 0));
    format!("{index} {variable} {value} {state}")
}
