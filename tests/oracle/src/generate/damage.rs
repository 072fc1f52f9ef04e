//! Damage to the words of a set: a bit, a word, a cut, words that change places.

use super::wild;
use crate::random::Random;

/// Does one damage, if there is a word to damage.
pub fn damage(random: &mut Random, words: &mut Vec<u32>) {
    if words.is_empty() {
        return;
    }
    let at = random.below(words.len());
    match random.below(8) {
        0..=2 => words[at] ^= 1 << random.below(32),
        3 => words[at] = random.word(),
        4 => words[at] = wild::noise_word(random),
        5 => words.truncate(at),
        6 => {
            let near = words.len().min(at + 8);
            words.swap(at, random.below(near));
        }
        _ => insert_or_remove(random, words, at),
    }
}

fn insert_or_remove(random: &mut Random, words: &mut Vec<u32>, at: usize) {
    if random.chance(50) {
        words.remove(at);
    } else {
        let copied = *random.pick(words);
        words.insert(at, copied);
    }
}
