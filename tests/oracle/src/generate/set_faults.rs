//! Faults of a set as a whole, aimed at refusals 6, 7, 8 and 9.

use super::formula;
use crate::random::Random;
use crate::syntax::{Class, Condition, Event, Rows, Sheet};

/// Some of the four faults in one set: after the words the refusals have an order.
pub fn several(random: &mut Random, mut sheet: Sheet) -> Sheet {
    let faults = [with_initial_value, enlarged, cyclic, without_table];
    for fault in faults {
        if random.chance(50) {
            sheet = fault(random, sheet);
        }
    }
    sheet
}

/// One or two tables taken out.
pub fn without_table(random: &mut Random, mut sheet: Sheet) -> Sheet {
    for _ in 0..random.between(1, 2) {
        if !sheet.tables.is_empty() {
            sheet.tables.remove(random.below(sheet.tables.len()));
        }
    }
    sheet
}

/// An initial value for one or two condition variables.
pub fn with_initial_value(random: &mut Random, mut sheet: Sheet) -> Sheet {
    let settled: Vec<usize> = (0..sheet.variables.len()).filter(|&v| !sheet.is_held(v)).collect();
    for _ in 0..random.between(1, 2) {
        if !settled.is_empty() {
            let variable = &mut sheet.variables[*random.pick(&settled)];
            variable.initial = random.value_below(variable.size);
        }
    }
    sheet
}

/// Greater sizes for all variables but mode classes; those of condition variables don't count.
pub fn enlarged(random: &mut Random, mut sheet: Sheet) -> Sheet {
    for variable in &mut sheet.variables {
        if variable.class != Class::ModeClass {
            variable.size = random.between(variable.size as usize, 256) as u32;
        }
    }
    sheet
}

/// Some tables made to read one another in a ring, and one of the others made to read into it.
pub fn cyclic(random: &mut Random, mut sheet: Sheet) -> Sheet {
    let mut tables: Vec<usize> = (0..sheet.tables.len()).collect();
    if tables.is_empty() {
        return sheet;
    }
    random.shuffle(&mut tables);
    let length = random.between(1, tables.len());
    for place in 0..length {
        let read = sheet.tables[tables[(place + 1) % length]].variable;
        add_read(random, &mut sheet, tables[place], read);
    }
    if length < tables.len() && random.chance(50) {
        let read = sheet.tables[tables[0]].variable;
        add_read(random, &mut sheet, tables[length], read);
    }
    sheet
}

/// Makes a table read a variable.
fn add_read(random: &mut Random, sheet: &mut Sheet, table: usize, read: usize) {
    let test = formula::equals(read, random.value_below(sheet.variables[read].size));
    match &mut sheet.tables[table].rows {
        Rows::Mode(rows) | Rows::Event(rows) => {
            let at = random.below(rows.len());
            rows[at].formula = match rows[at].formula.clone() {
                Event::Change { change, c, d } => Event::Change { change, c: formula::and(c, test), d },
                other => {
                    let more = formula::change(random, test, Condition::Constant(true));
                    Event::Or(Box::new(other), Box::new(more))
                }
            };
        }
        Rows::Condition(rows) => {
            let at = random.below(rows.len());
            rows[at].formula = formula::or(rows[at].formula.clone(), test);
        }
    }
}
