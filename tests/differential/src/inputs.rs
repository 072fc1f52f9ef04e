//! Random inputs of the probe by seed.

use oracle::bytes::to_bytes;
use oracle::generate::calls::{self, Call, Lengths};
use oracle::generate::{self, aimed, wild};
use oracle::inputs::probe_input;
use oracle::probe;
use oracle::random::Random;

/// The calls compared, each with its share of the inputs. A call that the program lacks is left out.
const CALLS: &[(u32, usize)] = &[
    (probe::START, 10),
    (probe::STEP, 50),
    (probe::RUN, 50),
    (probe::VALUES, 25),
    (probe::ROWS, 15),
    (probe::CHECK, 50),
];

/// The probe's own bounds on lists.
const LENGTHS: Lengths = Lengths { events: probe::MOST_EVENTS, trace: probe::MOST_TRACE, bytes: probe::MOST_BYTES };

/// The input at a place in the series of a seed.
pub fn nth_input(seed: u64, index: u64) -> Vec<u8> {
    let mut random = Random::of_item(seed, index);
    let number = call_number(&mut random);
    let input = input(&mut random, number);
    if random.chance(95) {
        return input;
    }
    other_layout(&mut random, input)
}

/// The same for one call alone, every input laid out as the probe asks.
pub fn nth_input_of(number: u32, seed: u64, index: u64) -> Vec<u8> {
    input(&mut Random::of_item(seed, index), number)
}

fn input(random: &mut Random, number: u32) -> Vec<u8> {
    let words = if number == probe::CHECK { generate::checked_set(random) } else { set(random) };
    let call = call(random, number, &words);
    probe_input(&words, &call)
}

/// Sets of every kind, then more of those that read, since only on them a state is looked at, and of those with a gap or
/// an overlap, since a random step seldom meets one.
fn set(random: &mut Random) -> Vec<u32> {
    match random.below(100) {
        0..=44 => generate::set(random),
        45..=69 => generate::reading_set(random),
        _ => {
            let number = random.between(10, 12) as u32;
            aimed::aimed_at(random, number)
        }
    }
}

fn call(random: &mut Random, number: u32, words: &[u32]) -> Call {
    match number {
        probe::START => Call::Start,
        probe::STEP => calls::step_call(random, words),
        probe::RUN => calls::run_call(random, words, LENGTHS),
        probe::VALUES => calls::values_call(random, words, LENGTHS),
        probe::ROWS => calls::rows_call(random, words),
        _ => Call::Check,
    }
}

fn call_number(random: &mut Random) -> u32 {
    let all = CALLS.iter().map(|(_, share)| share).sum();
    let mut left = random.below(all);
    for &(number, share) in CALLS {
        if left < share {
            return number;
        }
        left -= share;
    }
    unreachable!("a number below the sum of the shares falls to one of them")
}

/// The same input cut short, longer, with another count of words, another last word, or a number that is no call.
fn other_layout(random: &mut Random, mut input: Vec<u8>) -> Vec<u8> {
    match random.below(5) {
        0 => input.truncate(random.below(input.len())),
        1 => input.extend((0..random.below(9)).map(|_| random.word() as u8)),
        2 => put_word(&mut input, 1, word_count(random)),
        3 => {
            let last = input.len() / 4 - 1;
            put_word(&mut input, last, wild::noise_word(random));
        }
        _ => put_word(&mut input, 0, no_call(random)),
    }
    input
}

fn put_word(input: &mut [u8], index: usize, word: u32) {
    input[4 * index..][..4].copy_from_slice(&to_bytes(&[word]));
}

fn word_count(random: &mut Random) -> u32 {
    match random.below(4) {
        0 => probe::MOST_WORDS as u32 + random.value_below(2),
        1 => random.word(),
        _ => random.value_below(100),
    }
}

fn no_call(random: &mut Random) -> u32 {
    match random.below(3) {
        0 => 0,
        1 => probe::CHECK + 1,
        _ => (1 + random.value_below(255)) << 8 | random.value_below(7),
    }
}

#[cfg(test)]
mod tests {
    use super::*;

    #[test]
    fn an_index_gives_one_input() {
        let inputs: Vec<Vec<u8>> = (0..50).map(|index| nth_input(1, index)).collect();
        assert_eq!(inputs, (0..50).map(|index| nth_input(1, index)).collect::<Vec<_>>());
        assert_ne!(inputs, (0..50).map(|index| nth_input(2, index)).collect::<Vec<_>>());
    }

    #[test]
    fn one_call_alone() {
        for number in probe::START..=probe::CHECK {
            assert!((0..50).all(|index| nth_input_of(number, 1, index)[..4] == number.to_le_bytes()));
        }
    }

    #[test]
    fn only_calls_of_the_list_or_none() {
        let allowed =
            |number| CALLS.iter().any(|&(call, _)| call == number) || !(probe::START..=probe::CHECK).contains(&number);
        for index in 0..5000 {
            let mut input = nth_input(3, index);
            input.resize(4, 0);
            assert!(allowed(u32::from_le_bytes(input.try_into().unwrap())));
        }
    }
}
