//! Sets aimed at one refusal of check.

use super::{assertions, bounds, cheap, lawful, near, out_of_order, set_faults, word_faults};
use crate::limits;
use crate::random::Random;
use crate::read::read;
use crate::refusal;
use crate::sweep::check_fast;
use crate::syntax::Sheet;
use crate::write;

/// How often a set is drawn again that missed its refusal.
const ATTEMPTS: usize = 12;

/// Any refusal that check can give.
pub fn any(random: &mut Random) -> Vec<u32> {
    let number = *random.pick(&refusal::OF_CHECK);
    aimed_at(random, number)
}

/// A set that check refuses with this number, except by bad luck.
pub fn aimed_at(random: &mut Random, number: u32) -> Vec<u32> {
    let mut words = Vec::new();
    for _ in 0..ATTEMPTS {
        let drawn = attempt(random, number);
        if read(&drawn).is_ok_and(|set| !cheap(&set)) {
            continue;
        }
        words = drawn;
        if check_fast(&words).refusal_number() == number {
            break;
        }
    }
    words
}

fn attempt(random: &mut Random, number: u32) -> Vec<u32> {
    let sheet = lawful::sheet(random);
    match number {
        1 => no_set(random),
        2 => word_faults::misplaced(random, write::sheet(&sheet)),
        3 => word_faults::out_of_range(random, &sheet),
        4 => bounds::over(random),
        5 => {
            let sheet = if random.chance(30) { out_of_order::tables(random, sheet) } else { sheet };
            word_faults::unfit_table(random, sheet)
        }
        21 => {
            let later = random.between(6, 14) as u32;
            let sheet = if random.chance(50) { with_fault(random, sheet, later) } else { sheet };
            out_of_order::words(random, sheet)
        }
        8 if random.chance(50) => bounds::states(&bounds::too_many_states(random)),
        _ => write::sheet(&with_fault(random, sheet, number)),
    }
}

/// A fault that shows only after the words, aimed at refusal 6 to 14.
fn with_fault(random: &mut Random, sheet: Sheet, number: u32) -> Sheet {
    match number {
        6 => set_faults::without_table(random, sheet),
        7 => set_faults::with_initial_value(random, sheet),
        8 => set_faults::enlarged(random, sheet),
        9 => set_faults::cyclic(random, sheet),
        10 | 11 => near::other_row(random, sheet),
        12 => near::overlapping(random, sheet),
        _ => assertions::with_another(random, sheet, number == 14),
    }
}

fn no_set(random: &mut Random) -> Vec<u32> {
    if random.chance(60) {
        return Vec::new();
    }
    bounds::words(limits::WORDS + 1 + random.below(2) * random.below(900))
}
