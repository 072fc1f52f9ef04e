//! Sets at the limits of document 01. Each takes the number that stands at the limit or one over it.

use super::formula::{and, equals, not, or};
use crate::limits;
use crate::random::Random;
use crate::syntax::{Change, Class, Condition, Event, Row, Rows, Sheet, Table, Variable};
use crate::word;
use crate::write;

const TRUE: Condition = Condition::Constant(true);

fn variable(class: Class, size: u32) -> Variable {
    Variable { class, size, initial: 0 }
}

fn every_mode<Formula>(value: u32, formula: Formula) -> Row<Formula> {
    Row { mode: None, value, formula }
}

fn always(value: u32) -> Vec<Row<Condition>> {
    vec![every_mode(value, TRUE)]
}

fn on_change(c: Condition, d: Condition) -> Event {
    Event::Change { change: Change::ToTrue, c, d }
}

/// As many variables, a few of them inputs, the others constant.
pub fn variables(random: &mut Random, count: usize) -> Vec<u32> {
    let inputs = random.below(4);
    let mut sheet = Sheet::default();
    for number in 0..count {
        if number < inputs {
            sheet.variables.push(variable(Class::Monitored, 2));
        } else {
            sheet.variables.push(variable(Class::Term, 2));
            sheet.tables.push(Table { variable: number, class_read: None, rows: Rows::Condition(always(1)) });
        }
    }
    write::sheet(&sheet)
}

/// As many inputs of size 2.
pub fn inputs(count: usize) -> Vec<u32> {
    vec![write::variable(1, 2, 0); count]
}

/// A table of type 1, 2 or 3 with as many rows, of which at most the first can ever hold.
pub fn constant_rows(table_type: u32, count: usize) -> Vec<u32> {
    let (class, class_read) = if table_type == 1 { (2, 0) } else { (3, word::NONE) };
    let first = if table_type == 3 { write::TRUE } else { write::FALSE };
    let mut words = vec![write::variable(class, 2, 0), write::table(table_type, 0, class_read)];
    words.extend([write::row(word::NONE, 0), first]);
    words.extend([write::row(word::NONE, 1), write::FALSE].repeat(count - 1));
    words
}

/// A table of type 1, 2 or 3 with as many rows, one for each value of an input.
pub fn rows(table_type: u32, count: usize) -> Vec<u32> {
    let input = variable(Class::Monitored, count as u32);
    let event_rows =
        || (0..count as u32).map(|value| every_mode(value % 2, on_change(equals(0, value), TRUE))).collect();
    let (class, class_read, rows) = match table_type {
        1 => (Class::ModeClass, Some(1), Rows::Mode(event_rows())),
        2 => (Class::Term, None, Rows::Event(event_rows())),
        _ => {
            let rows = (0..count as u32).map(|value| every_mode(value % 2, equals(0, value))).collect();
            (Class::Controlled, None, Rows::Condition(rows))
        }
    };
    let tables = vec![Table { variable: 1, class_read, rows }];
    write::sheet(&Sheet { variables: vec![input, variable(class, 2)], tables, assertions: Vec::new() })
}

pub fn assertions(random: &mut Random, count: usize) -> Vec<u32> {
    let variables = if random.chance(50) { vec![variable(Class::Monitored, 2)] } else { Vec::new() };
    let assertions = vec![TRUE; count];
    write::sheet(&Sheet { variables, tables: Vec::new(), assertions })
}

/// Where a formula may reach its greatest depth.
#[derive(Clone, Copy, Debug, PartialEq, Eq)]
pub enum Place {
    Assertion,
    ConditionRow,
    /// Events joined by "or".
    Events,
    /// Inside c of a change.
    Changing,
    /// Inside d of a change.
    When,
}

pub const PLACES: [Place; 5] = [Place::Assertion, Place::ConditionRow, Place::Events, Place::Changing, Place::When];

/// A set with a formula of just this depth, 2 at least. Within the limit it passes.
pub fn depth(random: &mut Random, place: Place, depth: usize) -> Vec<u32> {
    let deep = deep_condition(random, depth - 1);
    let input = variable(Class::Monitored, 2);
    if place == Place::Assertion {
        let assertions = vec![or(TRUE, deep)];
        return write::sheet(&Sheet { variables: vec![input], tables: Vec::new(), assertions });
    }
    let rows = match place {
        Place::Events => Rows::Event(vec![every_mode(1, deep_event(random, depth))]),
        Place::Changing => Rows::Event(vec![every_mode(1, on_change(deep, TRUE))]),
        Place::When => Rows::Event(vec![every_mode(1, on_change(equals(0, 1), deep))]),
        _ => Rows::Condition(vec![every_mode(1, or(TRUE, deep))]),
    };
    let tables = vec![Table { variable: 1, class_read: None, rows }];
    write::sheet(&Sheet { variables: vec![input, variable(Class::Term, 2)], tables, assertions: Vec::new() })
}

/// A chain of operators down to a test of variable 0 at this depth.
fn deep_condition(random: &mut Random, depth: usize) -> Condition {
    if depth <= 1 {
        return equals(0, random.value_below(2));
    }
    let deeper = deep_condition(random, depth - 1);
    match random.below(5) {
        0 => not(deeper),
        1 => and(deeper, TRUE),
        2 => and(TRUE, deeper),
        3 => or(deeper, equals(0, 0)),
        _ => or(equals(0, 1), deeper),
    }
}

/// A chain of "or" down to a change or the constant false at this depth; a change is one deeper with its conditions.
fn deep_event(random: &mut Random, depth: usize) -> Event {
    if depth <= 1 {
        return Event::Never;
    }
    if depth == 2 && random.chance(50) {
        return on_change(equals(0, 1), TRUE);
    }
    let deeper = Box::new(deep_event(random, depth - 1));
    let never = Box::new(Event::Never);
    if random.chance(50) {
        Event::Or(deeper, never)
    } else {
        Event::Or(never, deeper)
    }
}

/// Held variables of these sizes, the first of them an input, the others never changed.
pub fn states(sizes: &[u32]) -> Vec<u32> {
    let mut sheet = Sheet::default();
    for (number, &size) in sizes.iter().enumerate() {
        if number == 0 {
            sheet.variables.push(variable(Class::Monitored, size));
            continue;
        }
        sheet.variables.push(variable(Class::Term, size));
        let rows = Rows::Event(vec![every_mode(0, Event::Never)]);
        sheet.tables.push(Table { variable: number, class_read: None, rows });
    }
    write::sheet(&sheet)
}

/// Sizes with the product 65,536.
pub fn most_states(random: &mut Random) -> Vec<u32> {
    let mut sizes = vec![2];
    let mut left = 15;
    while left > 0 {
        let power = random.between(1, left.min(8));
        sizes.push(1 << power);
        left -= power;
    }
    sizes
}

/// Sizes with a product just over 65,536, or well over it.
pub fn too_many_states(random: &mut Random) -> Vec<u32> {
    if random.chance(50) {
        return vec![20, 29, 113]; // 65,540
    }
    let mut sizes = most_states(random);
    sizes.extend((0..random.between(1, 20)).map(|_| random.value_below(255) + 2));
    sizes.truncate(limits::VARIABLES);
    sizes
}

/// One variable of this class code and size; one that isn't monitored has a table.
pub fn size(class: u32, size: u32) -> Vec<u32> {
    let mut words = vec![write::variable(class, size, 0)];
    match class {
        1 => {}
        2 => words.extend([write::table(1, 0, 0), write::row(255, 0), write::FALSE]),
        _ => words.extend([write::table(2, 0, 255), write::row(255, 0), write::FALSE]),
    }
    words
}

/// A set of as many words, three at least: an input and a true assertion.
pub fn words(count: usize) -> Vec<u32> {
    let mut words = vec![write::variable(1, 2, 0), write::ASSERTION];
    truth(count - 2, &mut words);
    words
}

/// A true condition of just so many words, divided evenly to stay shallow.
fn truth(count: usize, words: &mut Vec<u32>) {
    match count {
        0 => {}
        1 => words.push(write::TRUE),
        2 => words.extend([write::NOT, write::FALSE]),
        _ => {
            words.push(write::AND);
            truth((count - 1) / 2, words);
            truth(count - 1 - (count - 1) / 2, words);
        }
    }
}

/// Any set at a limit.
pub fn within(random: &mut Random) -> Vec<u32> {
    match random.below(13) {
        0 => variables(random, limits::VARIABLES),
        1 => inputs(limits::VARIABLES),
        2 => rows(random.between(1, 3) as u32, limits::ROWS),
        3 => assertions(random, limits::ASSERTIONS),
        4 => size(*random.pick(&[1, 3, 4]), limits::SIZE),
        5 => size(2, limits::MODES),
        6 => words(limits::WORDS),
        7 if random.chance(40) => states(&most_states(random)),
        _ => depth_at(random, limits::DEPTH),
    }
}

/// Any set one over a limit that is refusal 4.
pub fn over(random: &mut Random) -> Vec<u32> {
    match random.below(9) {
        0 => variables(random, limits::VARIABLES + 1),
        1 => inputs(limits::VARIABLES + 1),
        2 => rows(random.between(1, 3) as u32, limits::ROWS + 1),
        3 => assertions(random, limits::ASSERTIONS + 1),
        _ => depth_at(random, limits::DEPTH + 1),
    }
}

/// Any set over a limit that is another refusal: 1, 3 or 8.
pub fn over_otherwise(random: &mut Random) -> Vec<u32> {
    match random.below(5) {
        0 => size(*random.pick(&[1, 3, 4]), limits::SIZE + 1),
        1 => size(2, limits::MODES + 1),
        2 => size(random.between(1, 4) as u32, random.value_below(2)),
        3 => words(limits::WORDS + 1),
        _ => states(&too_many_states(random)),
    }
}

fn depth_at(random: &mut Random, depth: usize) -> Vec<u32> {
    let place = *random.pick(&PLACES);
    self::depth(random, place, depth)
}
