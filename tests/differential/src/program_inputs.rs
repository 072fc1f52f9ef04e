//! Random inputs of the program by seed.

use oracle::generate::program::{input, input_of_length, long_input};
use oracle::generate::{self, lawful};
use oracle::limits;
use oracle::random::Random;
use oracle::write;

/// The input at a place in the series of a seed.
pub fn nth_program_input(seed: u64, index: u64) -> Vec<u8> {
    let random = &mut Random::of_item(seed, index);
    match random.below(100) {
        0..=44 => {
            let words = generate::set(random);
            input(random, &words, limits::EVENTS + 1)
        }
        45..=69 => {
            let words = generate::reading_set(random);
            input(random, &words, limits::EVENTS + 1)
        }
        70..=79 => {
            let words = generate::checked_set(random);
            input_of_length(random, &words, 0)
        }
        80..=91 => {
            let words = write::sheet(&lawful::sheet(random));
            let length = many(random);
            input_of_length(random, &words, length)
        }
        92..=95 => {
            let words = generate::set(random);
            long_input(random, &words)
        }
        _ => few_bytes(random),
    }
}

/// A length of a long list of events: up to as many as a run may have, or one more.
fn many(random: &mut Random) -> usize {
    match random.below(8) {
        0 => limits::EVENTS,
        1 => limits::EVENTS + 1,
        _ => random.between(100, limits::EVENTS),
    }
}

/// None, or so few that the last word is often broken.
fn few_bytes(random: &mut Random) -> Vec<u8> {
    (0..random.below(10)).map(|_| random.word() as u8).collect()
}

#[cfg(test)]
mod tests {
    use super::*;

    #[test]
    fn an_index_gives_one_input() {
        let inputs: Vec<Vec<u8>> = (0..50).map(|index| nth_program_input(1, index)).collect();
        assert_eq!(inputs, (0..50).map(|index| nth_program_input(1, index)).collect::<Vec<_>>());
        assert_ne!(inputs, (0..50).map(|index| nth_program_input(2, index)).collect::<Vec<_>>());
    }
}
