//! Generated inputs as files: for the probe and for the program, each with the output expected.

use crate::bytes::to_bytes;
use crate::generate::calls::{self, Call, Lengths};
use crate::generate::{self, program as program_input};
use crate::probe::{self, probe};
use crate::program::program;
use crate::random::Random;
use std::fs;
use std::io;
use std::path::Path;

/// The probe's own bounds on lists.
const LENGTHS: Lengths = Lengths { events: probe::MOST_EVENTS, trace: probe::MOST_TRACE, bytes: probe::MOST_BYTES };

/// A call as the probe takes it.
pub fn probe_input(words: &[u32], call: &Call) -> Vec<u8> {
    let (number, arguments) = match call {
        Call::Start => (probe::START, vec![]),
        Call::Step { state, event } => (probe::STEP, vec![*state, *event]),
        Call::Run { state, events, lent, place } => {
            (probe::RUN, [&[*state, *place, *lent as u32], &events[..]].concat())
        }
        Call::Values { state, lent } => (probe::VALUES, vec![*state, *lent as u32]),
        Call::Rows { variable } => (probe::ROWS, vec![*variable]),
        Call::Check => (probe::CHECK, vec![]),
    };
    to_bytes(&[&[number, words.len() as u32], words, &arguments].concat())
}

/// The probe's input at a place in the series of a seed.
pub fn nth_probe_input(seed: u64, index: u64) -> Vec<u8> {
    let mut random = Random::of_item(seed, index);
    let words = generate::set(&mut random);
    let call = if random.chance(40) { Call::Check } else { calls::call(&mut random, &words, LENGTHS) };
    probe_input(&words, &call)
}

/// The program's input at a place in the series of a seed.
pub fn nth_program_input(seed: u64, index: u64) -> Vec<u8> {
    let mut random = Random::of_item(seed, index);
    let words = generate::set(&mut random);
    if random.below(200) == 0 {
        return program_input::long_input(&mut random, &words);
    }
    program_input::input(&mut random, &words, LENGTHS.events)
}

/// Writes the inputs of a seed and what they must give: `N.probe`, `N.probe.out`, `N.program`, `N.program.out`.
pub fn write_inputs(seed: u64, count: u64, directory: &Path) -> io::Result<()> {
    fs::create_dir_all(directory)?;
    for index in 0..count {
        let path = |ending: &str| directory.join(format!("{index:06}.{ending}"));
        let input = nth_probe_input(seed, index);
        fs::write(path("probe"), &input)?;
        fs::write(path("probe.out"), probe(&input))?;
        let input = nth_program_input(seed, index);
        fs::write(path("program"), &input)?;
        fs::write(path("program.out"), program(&input))?;
    }
    Ok(())
}
