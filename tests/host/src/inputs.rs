//! Random bytes, states and events by seed.

use oracle::bytes::to_bytes;
use oracle::generate::calls::{step_call, Call};
use oracle::generate::{aimed, checked_set, reading_set, set};
use oracle::random::Random;

/// The bytes of a set to check.
pub fn nth_check(seed: u64, index: u64) -> Vec<u8> {
    let mut random = Random::of_item(seed, index);
    let words = checked_set(&mut random);
    bytes(&mut random, &words)
}

/// The bytes of a set, a state and an event. More sets read than are drawn at random, since only on them a state is looked at, and more
/// have a gap or an overlap, since a random step seldom meets one.
pub fn nth_step(seed: u64, index: u64) -> (Vec<u8>, u32, u32) {
    let mut random = Random::of_item(seed, index);
    let words = match random.below(100) {
        0..=44 => set(&mut random),
        45..=69 => reading_set(&mut random),
        _ => {
            let number = random.between(10, 12) as u32;
            aimed::aimed_at(&mut random, number)
        }
    };
    let Call::Step { state, event } = step_call(&mut random, &words) else { unreachable!("a step was asked for") };
    (bytes(&mut random, &words), state, event)
}

/// The bytes of words, one in ten times not as they should be.
fn bytes(random: &mut Random, words: &[u32]) -> Vec<u8> {
    let mut bytes = to_bytes(words);
    if random.chance(10) {
        damage(random, &mut bytes);
    }
    bytes
}

/// A byte altered, bytes cut off or added, or all words with their bytes turned round.
pub fn damage(random: &mut Random, bytes: &mut Vec<u8>) {
    match random.below(4) {
        0 => alter(random, bytes),
        1 => bytes.truncate(bytes.len().saturating_sub(random.between(1, 5))),
        2 => bytes.extend((0..random.between(1, 5)).map(|_| random.word() as u8)),
        _ => bytes.chunks_exact_mut(4).for_each(<[u8]>::reverse),
    }
}

/// A byte altered, if there is one.
pub fn alter(random: &mut Random, bytes: &mut [u8]) {
    if !bytes.is_empty() {
        bytes[random.below(bytes.len())] ^= 1 << random.below(8);
    }
}
