//! Random calls on a set: states, event words, lists of events and lent lists of every kind and length.

use super::{fault, wild};
use crate::limits;
use crate::random::Random;
use crate::read::{read, Set};
use crate::state::{self, held_values, state_number, Values};
use crate::step::{after, enabled_event, settle};
use crate::word;
use crate::write;

/// A call but for its set; a lent list is told by its length.
#[derive(Clone, Debug, PartialEq, Eq)]
pub enum Call {
    Check,
    Start,
    Step { state: u32, event: u32 },
    Run { state: u32, events: Vec<u32>, lent: usize, place: u32 },
    Values { state: u32, lent: usize },
    Rows { variable: u32 },
}

/// The greatest lengths of the lists of a call.
#[derive(Clone, Copy, Debug)]
pub struct Lengths {
    pub events: usize,
    pub trace: usize,
    pub bytes: usize,
}

/// Lists as long as a call may be handed, and one longer.
pub const FULL: Lengths = Lengths { events: limits::EVENTS + 1, trace: 8000, bytes: 300 };

/// Any call but check.
pub fn call(random: &mut Random, words: &[u32], most: Lengths) -> Call {
    match random.below(100) {
        0..=4 => Call::Start,
        5..=39 => step_call(random, words),
        40..=74 => run_call(random, words, most),
        75..=89 => values_call(random, words, most),
        _ => rows_call(random, words),
    }
}

pub fn step_call(random: &mut Random, words: &[u32]) -> Call {
    let set = read(words).ok();
    let set = set.as_ref();
    if let Some(start) = fault::start(random, words).filter(|_| random.chance(75)) {
        return Call::Step { state: start.state, event: start.events[0] };
    }
    let state = state(random, set);
    Call::Step { state, event: event_word(random, set, state) }
}

pub fn run_call(random: &mut Random, words: &[u32], most: Lengths) -> Call {
    let set = read(words).ok();
    let set = set.as_ref();
    let length = list_length(random).min(most.events);
    let (lent, place) = room(random, length, most.trace);
    let start = fault::start(random, words).filter(|start| start.events.len() <= length && random.chance(75));
    let (state, mut events) = start.map_or_else(|| (state(random, set), Vec::new()), |s| (s.state, s.events));
    follow(random, set, state, length, &mut events);
    Call::Run { state, events, lent, place }
}

pub fn rows_call(random: &mut Random, words: &[u32]) -> Call {
    Call::Rows { variable: variable_number(random, read(words).ok().as_ref()) }
}

pub fn values_call(random: &mut Random, words: &[u32], most: Lengths) -> Call {
    let set = read(words).ok();
    let set = set.as_ref();
    let needed = set.map_or(3, Set::variable_count);
    let lent = match random.below(10) {
        0 => 0,
        1 => needed.saturating_sub(1),
        2..=5 => needed,
        _ => needed + random.below(20),
    };
    let state = match fault::start(random, words) {
        Some(start) if random.chance(30) => start.state,
        _ => state(random, set),
    };
    Call::Values { state, lent: lent.min(most.bytes) }
}

/// A state: mostly typed, else just past the last one or huge.
fn state(random: &mut Random, set: Option<&Set>) -> u32 {
    let states = set.map_or(5, |set| set.states);
    match random.below(100) {
        0..=84 => random.value_below(states),
        85..=90 => states,
        91..=94 => states + random.value_below(9),
        95..=97 => random.word(),
        _ => u32::MAX,
    }
}

/// An event word, mostly one that is enabled in the state.
fn event_word(random: &mut Random, set: Option<&Set>, state: u32) -> u32 {
    match set {
        Some(set) if random.chance(75) => {
            let values = held_values(set, state.min(set.states - 1));
            enabled_word(random, set, &values).unwrap_or_else(|| spoiled_word(random, Some(set), state))
        }
        _ => spoiled_word(random, set, state),
    }
}

fn enabled_word(random: &mut Random, set: &Set, values: &Values) -> Option<u32> {
    let inputs: Vec<usize> = (0..set.variable_count()).filter(|&v| set.sheet.is_monitored(v)).collect();
    if inputs.is_empty() {
        return None;
    }
    let variable = *random.pick(&inputs);
    // One of the other values: those from the present one on are moved up by one.
    let value = random.value_below(set.size(variable) - 1);
    let value = value + u32::from(value >= values[variable]);
    Some(write::input_event(variable as u32, value))
}

/// A word that is likely not enabled: the value held, one past the range, a variable that is no input or none at all,
/// another kind, a spare bit.
fn spoiled_word(random: &mut Random, set: Option<&Set>, state: u32) -> u32 {
    let variable = variable_number(random, set) & 255;
    let known = set.filter(|set| (variable as usize) < set.variable_count());
    let (size, held) = known.map_or((2, 0), |set| {
        let values = held_values(set, state.min(set.states - 1));
        (set.size(variable as usize), values[variable as usize])
    });
    let value = random.value_below(size);
    match random.below(7) {
        0 => write::input_event(variable, held),
        1 => write::input_event(variable, size & 255),
        2 => write::input_event(variable, value),
        3 => write::input_event(255, value),
        4 => (random.below(16) as u32) << 28 | write::input_event(variable, value) & 0x0FFF_FFFF,
        5 => write::input_event(variable, value) | word::spare_bits(word::INPUT_EVENT) & 1 << random.between(8, 19),
        _ => wild::noise_word(random),
    }
}

fn variable_number(random: &mut Random, set: Option<&Set>) -> u32 {
    let count = set.map_or(4, Set::variable_count) as u32;
    match random.below(10) {
        0 => count,
        1 => count + random.value_below(300),
        2 if random.chance(20) => random.word(),
        _ => random.value_below(count),
    }
}

/// None, one, some, or as many events as a run may have, or one more.
pub fn list_length(random: &mut Random) -> usize {
    match random.below(200) {
        0..=19 => 0,
        20..=54 => 1,
        55..=174 => random.between(2, 10),
        175..=196 => random.between(11, 100),
        197..=198 => limits::EVENTS,
        _ => limits::EVENTS + 1,
    }
}

/// A list of events from a state, each enabled in the state that those before it lead to; often with one spoiled.
pub fn course(random: &mut Random, set: Option<&Set>, state: u32, length: usize) -> Vec<u32> {
    let mut events = Vec::new();
    follow(random, set, state, length, &mut events);
    events
}

/// Extends a list of events to the length given.
fn follow(random: &mut Random, set: Option<&Set>, state: u32, length: usize, events: &mut Vec<u32>) {
    let spoiled = random.chance(35).then(|| random.below(length));
    let after = |at: u32, word: u32| set.and_then(|set| next_state(set, at, word)).unwrap_or(at);
    let mut at = events.iter().fold(state, |at, &word| after(at, word));
    for index in events.len()..length {
        let word = match set {
            Some(set) if spoiled != Some(index) && state::is_typed(set, at) => {
                enabled_word(random, set, &held_values(set, at)).unwrap_or_else(|| wild::noise_word(random))
            }
            _ => spoiled_word(random, set, at),
        };
        events.push(word);
        at = after(at, word);
    }
}

fn next_state(set: &Set, state: u32, word: u32) -> Option<u32> {
    if !state::is_typed(set, state) {
        return None;
    }
    let before = settle(set, state).ok()?;
    let event = enabled_event(set, &before, word)?;
    let after = after(set, state, &before, event).ok()?;
    Some(state_number(set, &after))
}

/// A lent list's length and a place in it: just room enough, too little, too much, none at all.
fn room(random: &mut Random, events: usize, most: usize) -> (usize, u32) {
    let before = random.below(4);
    let beyond = random.below(4);
    let (lent, place) = match random.below(20) {
        0..=5 => (events, 0),
        6..=11 => (before + events + beyond, before),
        12..=14 => ((before + events).saturating_sub(1), before),
        15 => (events, events),
        16 => (events, events + 1 + random.below(5)),
        17 => (events + beyond, u32::MAX as usize),
        18 => (0, 0),
        _ => (random.below(9), random.below(9)),
    };
    (lent.min(most), place as u32)
}
