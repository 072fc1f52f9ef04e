//! Faults of single states: a condition true in one state makes a row or an assertion matter there alone.

use super::formula::{and, equals, not, or};
use crate::judge;
use crate::limits;
use crate::random::Random;
use crate::read::{read, Set};
use crate::state::Values;
use crate::step::settle;
use crate::syntax::{Change, Condition, Event, Row, Rows, Sheet};
use crate::write;

/// A formula names at most so many variables of a state, for its depth.
const MOST_NAMES: usize = 12;

/// The set and one of its states, often one beyond the last full 64.
fn place(random: &mut Random, sheet: &Sheet) -> Option<(Set, Values)> {
    let set = read(&write::sheet(sheet)).ok()?;
    let last = set.states / 64 * 64;
    let beyond = last < set.states && random.chance(40);
    let state = if beyond { last + random.value_below(set.states - last) } else { random.value_below(set.states) };
    let values = settle(&set, state).ok()?;
    Some((set, values))
}

/// True where all these variables have these values.
fn just_there(names: &[usize], values: &Values) -> Condition {
    let tests = names.iter().take(MOST_NAMES).map(|&variable| equals(variable, values[variable]));
    tests.reduce(and).unwrap_or(Condition::Constant(true))
}

/// An assertion at any place, false in one state alone.
pub fn false_assertion(random: &mut Random, mut sheet: Sheet) -> Sheet {
    let Some((set, values)) = place(random, &sheet) else { return sheet };
    if sheet.assertions.len() < limits::ASSERTIONS {
        let assertion = not(just_there(&set.held, &values));
        sheet.assertions.insert(random.below(sheet.assertions.len() + 1), assertion);
    }
    sheet
}

/// An event row that may hold in a state doubled, the twin with a guard that is true in that state alone.
pub fn event_row(random: &mut Random, mut sheet: Sheet) -> Sheet {
    let Some((set, values)) = place(random, &sheet) else { return sheet };
    let guard = just_there(&set.held, &values);
    let Some(at) = event_table(random, &sheet) else { return sheet };
    let table = &mut sheet.tables[at];
    if let Rows::Mode(rows) | Rows::Event(rows) = &mut table.rows {
        let in_mode = |row: &Row<Event>| row.mode.is_none() || row.mode == table.class_read.map(|class| values[class]);
        let fit: Vec<&Row<Event>> = rows.iter().filter(|row| in_mode(row) && may_hold(&row.formula, &values)).collect();
        if !fit.is_empty() {
            let mut twin = (*random.pick(&fit)).clone();
            if let Event::Change { d, .. } = &mut twin.formula {
                *d = guard;
            }
            insert(random, rows, twin, set.size(table.variable));
        }
    }
    sheet
}

fn may_hold(event: &Event, before: &Values) -> bool {
    matches!(event, Event::Change { d, .. } if judge::condition(d, before))
}

fn event_table(random: &mut Random, sheet: &Sheet) -> Option<usize> {
    let tables: Vec<usize> = (0..sheet.tables.len()).filter(|&at| !sheet.tables[at].is_condition_table()).collect();
    (!tables.is_empty()).then(|| *random.pick(&tables))
}

/// Two rows that in one state hold together at either of two events, of the lower input with the higher value.
pub fn two_events(random: &mut Random, mut sheet: Sheet) -> Sheet {
    let Some((set, values)) = place(random, &sheet) else { return sheet };
    let inputs: Vec<usize> = (0..set.variable_count()).filter(|&v| set.sheet.is_monitored(v)).collect();
    let ([first, second, ..], Some(at)) = (&inputs[..], event_table(random, &sheet)) else { return sheet };
    let other = |variable: usize, value: u32| value < set.size(variable) && value != values[variable];
    let pairs = (0..set.size(*first)).flat_map(|high| (0..high).map(move |low| (high, low)));
    let pairs: Vec<(u32, u32)> = pairs.filter(|&(high, low)| other(*first, high) && other(*second, low)).collect();
    if pairs.is_empty() {
        return sheet;
    }
    let (high, low) = *random.pick(&pairs);
    let c = or(equals(*first, high), equals(*second, low));
    let formula = Event::Change { change: Change::ToTrue, c, d: just_there(&set.held, &values) };
    let size = set.size(sheet.tables[at].variable);
    if let Rows::Mode(rows) | Rows::Event(rows) = &mut sheet.tables[at].rows {
        for _ in 0..2 {
            insert(random, rows, Row { mode: None, value: 0, formula: formula.clone() }, size);
        }
    }
    sheet
}

/// A condition row with a hole, or a row more that holds in few states: a gap or an overlap there.
pub fn condition_row(random: &mut Random, mut sheet: Sheet) -> Sheet {
    let Some((set, values)) = place(random, &sheet) else { return sheet };
    let tables: Vec<usize> = (0..sheet.tables.len()).filter(|&at| sheet.tables[at].is_condition_table()).collect();
    if tables.is_empty() {
        return sheet;
    }
    let table = &mut sheet.tables[*random.pick(&tables)];
    // What comes before the variable in dependency order makes no cycle if its table names it.
    let before: Vec<usize> = set.order.iter().copied().take_while(|&variable| variable != table.variable).collect();
    let names: Vec<usize> = set.held.iter().copied().filter(|variable| before.contains(variable)).collect();
    let there = just_there(&names, &values);
    if let Rows::Condition(rows) = &mut table.rows {
        let at = random.below(rows.len());
        if random.chance(50) {
            let twin = Row { formula: there, ..rows[at].clone() };
            insert(random, rows, twin, set.size(table.variable));
        } else {
            let whole = rows[at].formula.clone();
            rows[at].formula = and(whole, not(there));
        }
    }
    sheet
}

/// With its value as often as with any.
fn insert<Formula>(random: &mut Random, rows: &mut Vec<Row<Formula>>, mut row: Row<Formula>, size: u32) {
    if random.chance(50) {
        row.value = random.value_below(size);
    }
    if rows.len() < limits::ROWS {
        rows.insert(random.below(rows.len() + 1), row);
    }
}
