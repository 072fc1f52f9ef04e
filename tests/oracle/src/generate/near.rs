//! Sets that nearly pass: a lawful set with one row altered.

use super::formula::{self, Scope};
use crate::limits;
use crate::random::Random;
use crate::syntax::{Class, Event, Row, Rows, Sheet, Table};

/// One row of one table taken out, doubled, or given another mode or formula.
pub fn other_row(random: &mut Random, mut sheet: Sheet) -> Sheet {
    if sheet.tables.is_empty() {
        return sheet;
    }
    let variables = sheet.variables.clone();
    let at = random.below(sheet.tables.len());
    let Table { variable, class_read, rows } = &mut sheet.tables[at];
    let size = variables[*variable].size;
    let modes = class_read.map(|class| variables[class].size);
    // What the table names already makes no cycle; inputs never do.
    let inputs = (0..variables.len()).filter(|&v| variables[v].class == Class::Monitored).collect();
    let now = Scope { variables: &variables, names: inputs, shared: &[] };
    let past = Scope::of_all(&variables);
    match rows {
        Rows::Mode(rows) | Rows::Event(rows) => {
            let event = formula::event(random, &now, &past, 2);
            alter(random, rows, modes, size, event);
        }
        Rows::Condition(rows) => {
            let condition = formula::condition(random, &now, 3);
            alter(random, rows, modes, size, condition);
        }
    }
    sheet
}

/// One event row doubled, the twin with another guard.
pub fn overlapping(random: &mut Random, mut sheet: Sheet) -> Sheet {
    let variables = sheet.variables.clone();
    let past = Scope::of_all(&variables);
    let mut tables: Vec<&mut Table> = sheet.tables.iter_mut().filter(|table| !table.is_condition_table()).collect();
    if tables.is_empty() {
        return sheet;
    }
    let at = random.below(tables.len());
    let value = random.value_below(variables[tables[at].variable].size);
    if let Rows::Mode(rows) | Rows::Event(rows) = &mut tables[at].rows {
        let mut twin = random.pick(rows).clone();
        twin.value = value;
        if let Event::Change { d, .. } = &mut twin.formula {
            *d = formula::condition(random, &past, 2);
        }
        if rows.len() < limits::ROWS {
            rows.insert(random.below(rows.len() + 1), twin);
        }
    }
    sheet
}

/// A row of every table doubled: two tables may then be at fault at once.
pub fn all_doubled(random: &mut Random, mut sheet: Sheet) -> Sheet {
    for table in &mut sheet.tables {
        match &mut table.rows {
            Rows::Mode(rows) | Rows::Event(rows) => double(random, rows),
            Rows::Condition(rows) => double(random, rows),
        }
    }
    sheet
}

fn double<Formula: Clone>(random: &mut Random, rows: &mut Vec<Row<Formula>>) {
    if rows.len() < limits::ROWS {
        let twin = random.pick(rows).clone();
        rows.insert(random.below(rows.len() + 1), twin);
    }
}

fn alter<Formula: Clone>(
    random: &mut Random,
    rows: &mut Vec<Row<Formula>>,
    modes: Option<u32>,
    size: u32,
    other: Formula,
) {
    let at = random.below(rows.len());
    match random.below(5) {
        0 if rows.len() > 1 => {
            rows.remove(at);
        }
        1 => rows[at].formula = other,
        2 => rows[at].mode = modes.filter(|_| random.chance(50)).map(|modes| random.value_below(modes)),
        3 if rows.len() < limits::ROWS => {
            let value = random.value_below(size);
            rows.insert(at, Row { mode: rows[at].mode, value, formula: other });
        }
        _ if rows.len() < limits::ROWS => {
            let value = random.value_below(size);
            let twin = Row { value, ..rows[at].clone() };
            rows.insert(random.between(at, rows.len()), twin);
        }
        _ => {}
    }
}
