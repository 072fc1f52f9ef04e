//! Sets for check alone: such as tell a wrong order of the search, or wrong premises, from the right ones.

use super::traits::{Search, Trait, TRAITS};
use super::{assertions, cheap, lawful, near, single};
use crate::random::Random;
use crate::read::read;
use crate::sweep::check_fast;
use crate::syntax::Sheet;
use crate::write;

/// How often a set is drawn again that lacks the trait wanted.
const ATTEMPTS: usize = 10;

/// A set with a trait, except by bad luck.
pub fn any(random: &mut Random) -> Vec<u32> {
    let wanted = *random.pick(&TRAITS);
    with_trait(random, wanted)
}

pub fn with_trait(random: &mut Random, wanted: Trait) -> Vec<u32> {
    let mut words = Vec::new();
    for _ in 0..ATTEMPTS {
        let drawn = write::sheet(&attempt(random, wanted));
        let Some(set) = read(&drawn).ok().filter(cheap) else { continue };
        let found = Search::of(&set).has(&check_fast(&drawn), wanted);
        words = drawn;
        if found {
            break;
        }
    }
    words
}

/// A set with a few faults.
pub fn faulty(random: &mut Random) -> Vec<u32> {
    let mut sheet = lawful::middle_sheet(random);
    for _ in 0..random.between(1, 3) {
        sheet = any_fault(random, sheet);
    }
    write::sheet(&sheet)
}

type Fault = fn(&mut Random, Sheet) -> Sheet;

/// A lawful set with the faults that a trait needs, now and then with any other.
fn attempt(random: &mut Random, wanted: Trait) -> Sheet {
    let sheet = if random.chance(70) { lawful::middle_sheet(random) } else { lawful::sheet(random) };
    if random.chance(15) {
        return any_fault(random, sheet);
    }
    faults(wanted).iter().fold(sheet, |sheet, fault| fault(random, sheet))
}

fn faults(wanted: Trait) -> &'static [Fault] {
    match wanted {
        Trait::GapAndOverlap => &[single::condition_row, single::condition_row, near::other_row],
        Trait::StepBeforeState => &[single::condition_row, near::overlapping],
        Trait::OtherOrder => &[near::all_doubled],
        Trait::EqualRows => &[near::other_row, near::overlapping],
        Trait::BreakBeforeOverlap => &[single::event_row, single::false_assertion],
        Trait::LowerBreaksLater | Trait::HigherFalseInitially | Trait::FalseAndBroken => {
            &[single::false_assertion, any_assertion]
        }
        Trait::KeptByEarlier | Trait::OwnPremise => &[assertions::with_invariants],
        Trait::LaterNoPremise => &[assertions::with_invariants, shuffled_assertions],
        Trait::Unreachable => &[any_fault],
        Trait::OneFault | Trait::LastStates => &[single::event_row],
        Trait::VariableBeforeValue => &[single::two_events],
    }
}

fn any_fault(random: &mut Random, sheet: Sheet) -> Sheet {
    match random.below(8) {
        0 => near::other_row(random, sheet),
        1 => near::overlapping(random, sheet),
        2 => single::condition_row(random, sheet),
        3 | 4 => single::event_row(random, sheet),
        5 => any_assertion(random, sheet),
        _ => single::false_assertion(random, sheet),
    }
}

fn any_assertion(random: &mut Random, sheet: Sheet) -> Sheet {
    let true_initially = random.chance(50);
    assertions::with_another(random, sheet, true_initially)
}

fn shuffled_assertions(random: &mut Random, mut sheet: Sheet) -> Sheet {
    random.shuffle(&mut sheet.assertions);
    sheet
}
