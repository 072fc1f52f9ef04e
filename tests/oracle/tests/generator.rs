//! The generator gives the same on every machine, and what the probe and the program can take.

use oracle::bytes::to_bytes;
use oracle::generate::calls::{self, Call};
use oracle::generate::{bounds, nth_set, small};
use oracle::inputs::{nth_probe_input, nth_program_input};
use oracle::perform::perform;
use oracle::random::Random;
use oracle::text::answer_line;
use oracle::{check, host_check, program};

/// The hash FNV-1a.
fn hash(bytes: impl IntoIterator<Item = u8>) -> u64 {
    bytes.into_iter().fold(0xCBF2_9CE4_8422_2325, |hash, byte| (hash ^ u64::from(byte)).wrapping_mul(0x0100_0000_01B3))
}

#[test]
fn numbers_of_a_seed() {
    // The first numbers of splitmix64 for the seed 1234567, as published with it.
    let mut random = Random::new(1_234_567);
    let numbers = [(); 3].map(|()| random.draw());
    assert_eq!(numbers, [6457827717110365317, 3203168211198807973, 9817491932198370423]);
}

#[test]
fn random_numbers_stay_in_range() {
    let mut random = Random::new(4);
    assert_eq!(random.below(0), 0);
    let mut seen = [false; 5];
    for _ in 0..200 {
        seen[random.below(5)] = true;
        assert!((3..=4).contains(&random.between(3, 4)));
    }
    assert_eq!(seen, [true; 5]);
}

#[test]
fn sets_and_calls_of_a_seed() {
    let sets = (0..1000).flat_map(|index| nth_set(7, index)).flat_map(u32::to_le_bytes);
    assert_eq!(hash(sets), SETS);
    let inputs = (0..1000).flat_map(|index| nth_probe_input(7, index));
    assert_eq!(hash(inputs), PROBE_INPUTS);
    let inputs = (0..1000).flat_map(|index| nth_program_input(7, index));
    assert_eq!(hash(inputs), PROGRAM_INPUTS);
}

const SETS: u64 = 10731347816062198442;
const PROBE_INPUTS: u64 = 9379935934164612011;
const PROGRAM_INPUTS: u64 = 5093428826466410651;

#[test]
fn sets_fit_the_probe() {
    for index in 0..4000 {
        assert!(nth_set(8, index).len() <= 5000);
    }
}

#[test]
fn limits_come_on_both_sides() {
    let mut random = Random::new(3);
    for _ in 0..300 {
        let within = bounds::within(&mut random);
        // Inputs alone make too many states; all else at a limit passes.
        assert!([0, 8].contains(&check(&within).refusal_number()), "{within:x?}");
        assert_eq!(check(&bounds::over(&mut random)).refusal_number(), 4);
        assert!([1, 3, 8].contains(&check(&bounds::over_otherwise(&mut random)).refusal_number()));
    }
}

#[test]
fn calls_come_in_all_kinds() {
    let mut lengths = [false; 4];
    let mut places = [false; 4];
    for index in 0..6000 {
        let mut random = Random::of_item(15, index);
        let words = nth_set(15, index % 500);
        if let Call::Run { events, lent, place, .. } = calls::run_call(&mut random, &words, calls::FULL) {
            let known = [0, 1, 4096, 4097].map(|length| events.len() == length);
            known.into_iter().enumerate().for_each(|(kind, is)| lengths[kind] |= is);
            let place = place as usize;
            let kinds = [place == 0, place > 0 && place < lent, place == lent, place > lent];
            kinds.into_iter().enumerate().for_each(|(kind, is)| places[kind] |= is);
        }
    }
    assert_eq!((lengths, places), ([true; 4], [true; 4]));
}

/// Words without any sense: every call gives an answer, and check, host and program the same.
#[test]
fn noise_is_refused_alike() {
    for index in 0..3000 {
        let mut random = Random::of_item(16, index);
        let words: Vec<u32> = (0..random.below(30)).map(|_| random.word()).collect();
        let verdict = check(&words);
        let call = calls::call(&mut random, &words, small::LENGTHS);
        if !matches!(call, Call::Rows { .. }) {
            assert_eq!(perform(&words, &call), verdict, "{words:x?} {call:?}");
        }
        let bytes = to_bytes(&words);
        assert_eq!(host_check(&bytes), verdict.refusal_number());
        let before_events = words.iter().position(|word| word >> 28 == 11).unwrap_or(words.len());
        let expected = answer_line(&check(&words[..before_events])) + "\n";
        assert_eq!(String::from_utf8(program(&bytes)), Ok(expected));
    }
}
