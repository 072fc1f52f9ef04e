//! Random input of the program: a set, then a list of events from its initial state, as bytes.

use super::{bounds, calls};
use crate::bytes::to_bytes;
use crate::limits;
use crate::random::Random;
use crate::read::read;
use crate::state::initial_state;
use crate::write;

/// Any list of events, of at most so many words; now and then a broken word at the end.
pub fn input(random: &mut Random, words: &[u32], most_events: usize) -> Vec<u8> {
    let length = calls::list_length(random).min(most_events);
    input_of_length(random, words, length)
}

/// The same with so many events.
pub fn input_of_length(random: &mut Random, words: &[u32], length: usize) -> Vec<u8> {
    let set = read(words).ok();
    let initial = set.as_ref().map_or(0, initial_state);
    let events = calls::course(random, set.as_ref(), initial, length);
    let mut bytes = to_bytes(&[words, &events].concat());
    if random.chance(12) {
        bytes.truncate(bytes.len().saturating_sub(random.between(1, 3)));
    }
    bytes
}

/// Input near the number of words that the program reads: the longest set with as many events as may be run, a few less
/// or more; or words without an event.
pub fn long_input(random: &mut Random, words: &[u32]) -> Vec<u8> {
    let length = random.between(limits::PROGRAM_WORDS - 2, limits::PROGRAM_WORDS + 2);
    let words: Vec<u32> = if words.is_empty() || random.chance(60) {
        let events = (0..limits::PROGRAM_WORDS as u32).map(|index| write::input_event(0, (index + 1) % 2));
        bounds::words(limits::WORDS).into_iter().chain(events).take(length).collect()
    } else {
        words.iter().copied().cycle().take(length).collect()
    };
    let mut bytes = to_bytes(&words);
    bytes.resize(bytes.len() + random.below(4), 0);
    bytes
}
