//! A set that reads: refusals 1 to 5 and 21 word by word, then 6, 7, 8 and 9, each over all variables.

use crate::limits;
use crate::order;
use crate::parse::{self, Parsed};
use crate::refusal::{self, Refusal};
use crate::syntax::{Class, Sheet, Table};
use std::ops::Range;

/// A set that clears the refusals of reading, 1 to 9 and 21.
#[derive(Clone, Debug, PartialEq, Eq)]
pub struct Set {
    pub sheet: Sheet,
    /// For each table, in the order of the words, the part of the words it takes up.
    pub parts: Vec<Range<usize>>,
    /// All variables in dependency order.
    pub order: Vec<usize>,
    /// The held variables by number.
    pub held: Vec<usize>,
    /// The number of typed states.
    pub states: u32,
    /// For each variable the place of its table in `sheet.tables`.
    table_places: Vec<Option<usize>>,
}

impl Set {
    pub fn table_of(&self, variable: usize) -> Option<&Table> {
        self.table_places[variable].map(|place| &self.sheet.tables[place])
    }

    pub fn size(&self, variable: usize) -> u32 {
        self.sheet.variables[variable].size
    }

    pub fn variable_count(&self) -> usize {
        self.sheet.variables.len()
    }
}

pub fn read(words: &[u32]) -> Result<Set, Refusal> {
    let Parsed { sheet, parts } = parse::parse(words)?;
    let variables = 0..sheet.variables.len();
    if let Some(variable) = variables.clone().find(|&v| lacks_table(&sheet, v)) {
        return Err(refusal::no_table(variable));
    }
    if let Some(variable) = variables.clone().find(|&v| !sheet.is_held(v) && sheet.variables[v].initial != 0) {
        return Err(refusal::initial_not_zero(variable));
    }
    let held: Vec<usize> = variables.clone().filter(|&v| sheet.is_held(v)).collect();
    let states = count_states(&sheet, &held)?;
    let order = order::dependency_order(&sheet)?;
    let table_places = variables.map(|v| sheet.tables.iter().position(|table| table.variable == v)).collect();
    Ok(Set { sheet, parts, order, held, states, table_places })
}

fn lacks_table(sheet: &Sheet, variable: usize) -> bool {
    sheet.variables[variable].class != Class::Monitored && sheet.table_of(variable).is_none()
}

/// The product of the held sizes, refused at the variable where it first passes the limit.
fn count_states(sheet: &Sheet, held: &[usize]) -> Result<u32, Refusal> {
    let mut product: u64 = 1;
    for &variable in held {
        product *= u64::from(sheet.variables[variable].size);
        if product > limits::STATES {
            return Err(refusal::too_many_states(variable));
        }
    }
    Ok(product as u32)
}
