//! Typed states: their numbers and the values they stand for.

use crate::limits;
use crate::read::Set;

/// One value per variable; entries beyond the set's variables are 0.
pub type Values = [u32; limits::VARIABLES];

/// The held values of a typed state. Condition variables are 0 until they are worked out.
pub fn held_values(set: &Set, state: u32) -> Values {
    let mut values = [0; limits::VARIABLES];
    let mut rest = state;
    for &variable in &set.held {
        values[variable] = rest % set.size(variable);
        rest /= set.size(variable);
    }
    values
}

/// The sum of each held value times the sizes of all lower-numbered held variables.
pub fn state_number(set: &Set, values: &Values) -> u32 {
    let mut number: u32 = 0;
    let mut weight: u32 = 1;
    for &variable in &set.held {
        number += values[variable] * weight;
        weight *= set.size(variable);
    }
    number
}

pub fn initial_state(set: &Set) -> u32 {
    let mut values = [0; limits::VARIABLES];
    for &variable in &set.held {
        values[variable] = set.sheet.variables[variable].initial;
    }
    state_number(set, &values)
}

pub fn is_typed(set: &Set, state: u32) -> bool {
    state < set.states
}
