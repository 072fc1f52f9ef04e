//! Test cases as lines of text, for a comparison with definitions in another language.
//!
//! A line is a call's name, its arguments, the answer and, for run and values, the lent list at exit, with tabs between
//! them. A list is numbers with blanks between them.

use crate::answer::Answer;
use crate::bytes::to_bytes;
use crate::calls::{rows, values};
use crate::check::check;
use crate::generate::calls::{self, Call};
use crate::generate::program as program_input;
use crate::generate::small::{self, small_set};
use crate::host::{host_check, host_step};
use crate::program::program;
use crate::random::Random;
use crate::simulate::{run, start, step};
use crate::text::join;

/// The case at a place in the series of a seed.
pub fn nth_case(seed: u64, index: u64) -> String {
    case(&mut Random::of_item(seed, index))
}

fn case(random: &mut Random) -> String {
    let words = small_set(random);
    match random.below(100) {
        0..=29 => call_case(random, &words, Call::Check),
        30..=79 => {
            let call = calls::call(random, &words, small::LENGTHS);
            call_case(random, &words, call)
        }
        80..=84 => host_check_case(random, &words),
        85..=89 => host_step_case(random, &words),
        _ => program_case(random, &words),
    }
}

fn line(fields: &[String]) -> String {
    fields.join("\t")
}

fn answer_text(answer: &Answer) -> String {
    match answer {
        Answer::Pass { states, steps, assertions } => format!("ok {states} {steps} {assertions}"),
        Answer::State(state) => format!("ok {state}"),
        Answer::Values(count) => format!("ok {count}"),
        Answer::Refuse(refusal) => {
            let fields = std::iter::once(u64::from(refusal.number)).chain(refusal.carried.iter().copied());
            format!("refuse {}", join(fields))
        }
    }
}

/// "ok" and a list, which may be empty.
fn list_text<Number: ToString>(numbers: impl IntoIterator<Item = Number>) -> String {
    format!("ok {}", join(numbers)).trim_end().to_string()
}

fn call_case(random: &mut Random, words: &[u32], call: Call) -> String {
    let set = join(words);
    match call {
        Call::Check => line(&["check".into(), set, answer_text(&check(words))]),
        Call::Start => line(&["start".into(), set, answer_text(&start(words))]),
        Call::Step { state, event } => {
            let answer = step(words, state, event);
            line(&["step".into(), set, state.to_string(), event.to_string(), answer_text(&answer)])
        }
        Call::Run { state, events, lent, place } => run_case(random, words, state, &events, lent, place),
        Call::Values { state, lent } => values_case(random, words, state, lent),
        Call::Rows { variable } => {
            let part = rows(words, variable as usize);
            line(&["rows".into(), set, variable.to_string(), list_text(part)])
        }
    }
}

fn run_case(random: &mut Random, words: &[u32], state: u32, events: &[u32], lent: usize, place: u32) -> String {
    let entry: Vec<u32> = (0..lent).map(|_| random.value_below(1000)).collect();
    let mut exit = entry.clone();
    let answer = run(words, state, events, &mut exit, place as usize);
    line(&[
        "run".into(),
        join(words),
        state.to_string(),
        join(events),
        place.to_string(),
        join(entry),
        answer_text(&answer),
        join(exit),
    ])
}

fn values_case(random: &mut Random, words: &[u32], state: u32, lent: usize) -> String {
    let entry: Vec<u8> = (0..lent).map(|_| random.value_below(256) as u8).collect();
    let mut exit = entry.clone();
    let answer = values(words, state, &mut exit);
    line(&["values".into(), join(words), state.to_string(), join(entry), answer_text(&answer), join(exit)])
}

/// The bytes of a list of words, now and then with a broken word at the end.
fn some_bytes(random: &mut Random, words: &[u32]) -> Vec<u8> {
    let mut bytes = to_bytes(words);
    if random.chance(12) {
        bytes.truncate(bytes.len().saturating_sub(random.between(1, 3)));
    }
    bytes
}

fn host_check_case(random: &mut Random, words: &[u32]) -> String {
    let bytes = some_bytes(random, words);
    let answer = host_check(&bytes);
    line(&["hostcheck".into(), join(bytes), format!("ok {answer}")])
}

fn host_step_case(random: &mut Random, words: &[u32]) -> String {
    let bytes = some_bytes(random, words);
    let Call::Step { state, event } = calls::step_call(random, words) else { return String::new() };
    let answer = host_step(&bytes, state, event);
    line(&["hoststep".into(), join(bytes), state.to_string(), event.to_string(), format!("ok {answer}")])
}

fn program_case(random: &mut Random, words: &[u32]) -> String {
    let bytes = program_input::input(random, words, small::LENGTHS.events);
    let output = program(&bytes);
    line(&["program".into(), join(bytes), list_text(output)])
}
