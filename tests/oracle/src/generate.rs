//! Random sets and calls by seed.

pub mod aimed;
pub mod assertions;
pub mod bounds;
pub mod calls;
pub mod damage;
pub mod fault;
pub mod formula;
pub mod lawful;
pub mod near;
pub mod out_of_order;
pub mod program;
pub mod set_faults;
pub mod shape;
pub mod single;
pub mod small;
pub mod telling;
pub mod traits;
pub mod wild;
pub mod word_faults;

use crate::check::typed_steps;
use crate::random::Random;
use crate::read::{read, Set};
use crate::write;

/// The generator itself checks a set, to see whether it hit its aim, only if the set has at most so many steps.
const CHEAP_STEPS: u64 = 2000;

fn cheap(set: &Set) -> bool {
    typed_steps(set) <= CHEAP_STEPS && u64::from(set.states) <= CHEAP_STEPS
}

/// The set at a place in the series of a seed.
pub fn nth_set(seed: u64, index: u64) -> Vec<u32> {
    set(&mut Random::of_item(seed, index))
}

/// Any set.
pub fn set(random: &mut Random) -> Vec<u32> {
    match random.below(100) {
        0..=25 => write::sheet(&lawful::sheet(random)),
        26..=27 => with_spare_bit(random),
        28..=33 => write::sheet(&wild::sheet(random)),
        34..=42 => near_set(random),
        43..=72 => aimed::any(random),
        73..=75 => aimed::aimed_at(random, 21),
        76..=78 => bounds::within(random),
        79..=80 => bounds::over_otherwise(random),
        81..=82 => several_faults(random),
        83..=86 => two_faults_of_a_word(random),
        87..=98 => damaged(random),
        _ => wild::noise(random),
    }
}

fn with_spare_bit(random: &mut Random) -> Vec<u32> {
    let sheet = lawful::sheet(random);
    word_faults::spare_bit(random, write::sheet(&sheet))
}

fn several_faults(random: &mut Random) -> Vec<u32> {
    let sheet = lawful::sheet(random);
    let words = write::sheet(&set_faults::several(random, sheet.clone()));
    // Without a fault the set may have grown too large to be tried often.
    if read(&words).is_ok() {
        return write::sheet(&sheet);
    }
    words
}

fn two_faults_of_a_word(random: &mut Random) -> Vec<u32> {
    let number = *random.pick(&[3, 4, 5, 21]);
    let words = aimed::aimed_at(random, number);
    word_faults::second_fault(random, words)
}

/// Any set that reads, but for a few.
pub fn reading_set(random: &mut Random) -> Vec<u32> {
    match random.below(10) {
        0..=4 => write::sheet(&lawful::sheet(random)),
        5 => write::sheet(&wild::sheet(random)),
        6..=8 => near_set(random),
        _ => {
            let number = random.between(10, 14) as u32;
            aimed::aimed_at(random, number)
        }
    }
}

/// Any set, and more of those for which the order of the search matters.
pub fn checked_set(random: &mut Random) -> Vec<u32> {
    match random.below(100) {
        0..=49 => set(random),
        50..=79 => telling::any(random),
        80..=94 => telling::faulty(random),
        _ => write::sheet(&lawful::middle_sheet(random)),
    }
}

fn near_set(random: &mut Random) -> Vec<u32> {
    let sheet = lawful::sheet(random);
    let near = if random.chance(60) { near::other_row } else { near::overlapping };
    write::sheet(&near(random, sheet))
}

fn damaged(random: &mut Random) -> Vec<u32> {
    let sheet = if random.chance(80) { lawful::sheet(random) } else { wild::sheet(random) };
    let mut words = write::sheet(&sheet);
    for _ in 0..1 + usize::from(random.chance(15)) {
        damage::damage(random, &mut words);
    }
    words
}
