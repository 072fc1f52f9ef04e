//! Sets and calls small enough for a slow evaluator.

use super::calls::Lengths;
use super::word_faults::refused_word;
use super::{bounds, reading_set, set};
use crate::check::typed_steps;
use crate::limits;
use crate::random::Random;
use crate::read::read;

pub const LENGTHS: Lengths = Lengths { events: 8, trace: 12, bytes: 40 };

/// Words of a set.
pub const WORDS: usize = 72;
/// Typed states of a set that reads.
pub const STATES: u32 = 200;
/// Typed steps of a set that reads.
pub const STEPS: u64 = 500;

/// A set of few words, states and steps. The limit of rows can't be reached with so few words; it has sets of its own,
/// longer but with two states.
pub fn small_set(random: &mut Random) -> Vec<u32> {
    if random.below(400) == 0 {
        return bounds::constant_rows(random.between(1, 3) as u32, limits::ROWS + random.below(2));
    }
    loop {
        // Sets that read are longer and would be too rare.
        let drawn = if random.chance(50) { reading_set(random) } else { set(random) };
        let words = shortened(random, drawn);
        if is_small(&words) {
            return words;
        }
    }
}

fn is_small(words: &[u32]) -> bool {
    words.len() <= WORDS && read(words).map_or(true, |set| set.states <= STATES && typed_steps(&set) <= STEPS)
}

/// Words well beyond a word that is refused by itself alter nothing, so most of them may go.
fn shortened(random: &mut Random, mut words: Vec<u32>) -> Vec<u32> {
    if let Some(at) = refused_word(&words) {
        words.truncate(at + 1 + random.below(8));
    }
    words
}
