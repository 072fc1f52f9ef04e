//! What a variable reads, the dependency order, and the cycle shown where there is none.

use crate::limits;
use crate::refusal::{self, Refusal};
use crate::syntax::{Condition, Event, Rows, Sheet, Table};
use std::collections::BTreeSet;

/// The variables that a variable reads, by what its table names: in a condition of type 3, inside c of a change, or as
/// the mode class of type 3. Tests in d and modes of types 1 and 2 read the past and don't count.
pub fn reads(sheet: &Sheet, variable: usize) -> BTreeSet<usize> {
    let mut read = BTreeSet::new();
    if let Some(table) = sheet.table_of(variable) {
        table_reads(table, &mut read);
    }
    read
}

fn table_reads(table: &Table, read: &mut BTreeSet<usize>) {
    match &table.rows {
        Rows::Mode(rows) | Rows::Event(rows) => rows.iter().for_each(|row| event_reads(&row.formula, read)),
        Rows::Condition(rows) => {
            read.extend(table.class_read);
            rows.iter().for_each(|row| condition_names(&row.formula, read));
        }
    }
}

fn event_reads(event: &Event, read: &mut BTreeSet<usize>) {
    match event {
        Event::Change { c, .. } => condition_names(c, read),
        Event::Or(first, second) => {
            event_reads(first, read);
            event_reads(second, read);
        }
        Event::Never => {}
    }
}

fn condition_names(condition: &Condition, named: &mut BTreeSet<usize>) {
    match condition {
        Condition::Test { variable, .. } => {
            named.insert(*variable);
        }
        Condition::Constant(_) => {}
        Condition::Not(only) => condition_names(only, named),
        Condition::And(first, second) | Condition::Or(first, second) => {
            condition_names(first, named);
            condition_names(second, named);
        }
    }
}

/// All variables in dependency order, or refusal 9.
pub fn dependency_order(sheet: &Sheet) -> Result<Vec<usize>, Refusal> {
    let count = sheet.variables.len();
    let reads: Vec<BTreeSet<usize>> = (0..count).map(|variable| reads(sheet, variable)).collect();
    let mut order: Vec<usize> = Vec::new();
    // The lowest untaken variable whose reads are all taken.
    while let Some(next) = (0..count).find(|v| !order.contains(v) && reads[*v].iter().all(|read| order.contains(read)))
    {
        order.push(next);
    }
    let stuck: BTreeSet<usize> = (0..count).filter(|v| !order.contains(v)).collect();
    match stuck.first() {
        None => Ok(order),
        Some(&lowest) => Err(cycle_shown(&reads, &stuck, lowest)),
    }
}

/// From the lowest stuck variable 32 moves, so that the walk is surely on the cycle, then as many as lead back.
fn cycle_shown(reads: &[BTreeSet<usize>], stuck: &BTreeSet<usize>, lowest: usize) -> Refusal {
    // A stuck variable reads a stuck one: else it would have been taken.
    let go = |from: usize| reads[from].intersection(stuck).next().copied().unwrap_or(from);
    let mut shown = lowest;
    for _ in 0..limits::CYCLE_MOVES {
        shown = go(shown);
    }
    let mut length = 1;
    let mut at = go(shown);
    while at != shown {
        at = go(at);
        length += 1;
    }
    refusal::cycle(shown, length)
}
