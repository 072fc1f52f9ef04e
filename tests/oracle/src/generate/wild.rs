//! Sets that mostly read, with tables drawn without care; and lists of words that make no sense.

use super::formula::{self, Scope};
use super::shape::{Role, Shape};
use crate::random::Random;
use crate::syntax::{Event, Row, Rows, Sheet, Table};
use crate::word;

pub fn sheet(random: &mut Random) -> Sheet {
    let shape = Shape::new(random);
    let tabled = (0..shape.count()).filter(|&variable| shape.roles[variable] != Role::Input);
    let tables = tabled.map(|variable| table(random, &shape, variable)).collect();
    let assertions = (0..random.below(3)).map(|_| formula::condition(random, &shape.past(), 3)).collect();
    Sheet { variables: shape.variables.clone(), tables, assertions }
}

fn table(random: &mut Random, shape: &Shape, variable: usize) -> Table {
    let class_read = shape.class_read(random, variable);
    let modes = class_read.map(|class| shape.variables[class].size);
    let size = shape.variables[variable].size;
    let past = shape.past();
    // A table that may name every variable often closes a cycle.
    let now = if random.chance(90) { shape.now(variable) } else { shape.past() };
    let rows = match shape.roles[variable] {
        Role::ConditionTable => Rows::Condition(rows(random, modes, size, |r| formula::condition(r, &now, 3))),
        Role::ModeTable => Rows::Mode(rows(random, modes, size, |r| event(r, &now, &past))),
        _ => Rows::Event(rows(random, modes, size, |r| event(r, &now, &past))),
    };
    Table { variable, class_read, rows }
}

fn event(random: &mut Random, now: &Scope, past: &Scope) -> Event {
    formula::event(random, now, past, 3)
}

fn rows<Formula>(
    random: &mut Random,
    modes: Option<u32>,
    size: u32,
    formula: impl Fn(&mut Random) -> Formula,
) -> Vec<Row<Formula>> {
    let count = random.between(1, 4);
    let row = |_| {
        let mode = modes.filter(|_| random.chance(75)).map(|modes| random.value_below(modes));
        Row { mode, value: random.value_below(size), formula: formula(random) }
    };
    (0..count).map(row).collect()
}

/// Words of any kind, most of them without spare bits and with small fields.
pub fn noise(random: &mut Random) -> Vec<u32> {
    let length = random.between(1, 40);
    (0..length).map(|_| noise_word(random)).collect()
}

pub fn noise_word(random: &mut Random) -> u32 {
    let word = random.word() & random.word();
    if random.chance(10) {
        return word;
    }
    let kind = random.below(12) as u32;
    kind << 28 | (word & 0x0FFF_FFFF & !word::spare_bits(kind))
}
