//! A state examined, and one step: the tables in dependency order, the first fault refused.

use crate::judge::{self, Holding};
use crate::read::Set;
use crate::refusal::{self, InputEvent, Refusal, Side};
use crate::state::{self, Values};
use crate::syntax::{Condition, Event, Row, Rows};
use crate::word;

/// All values of a typed state, or the first gap or overlap of its condition tables.
pub fn settle(set: &Set, state: u32) -> Result<Values, Refusal> {
    let mut values = state::held_values(set, state);
    for &variable in &set.order {
        let Some(table) = set.table_of(variable) else { continue };
        if let Rows::Condition(rows) = &table.rows {
            let holding = judge::condition_rows(rows, table.class_read, &values);
            values[variable] = condition_value(rows, holding, Side::Given, state, variable)?;
        }
    }
    Ok(values)
}

/// All values after an event that is enabled in a state with these values. In dependency order every value that a table
/// reads of the state after is there before the table is looked at.
pub fn after(set: &Set, state: u32, before: &Values, event: InputEvent) -> Result<Values, Refusal> {
    let mut after = *before;
    after[event.variable] = event.value;
    for &variable in &set.order {
        let Some(table) = set.table_of(variable) else { continue };
        after[variable] = match &table.rows {
            Rows::Mode(rows) | Rows::Event(rows) => {
                let holding = judge::event_rows(rows, table.class_read, before, &after);
                event_value(rows, holding, before[variable])
                    .map_err(|two| refusal::event_overlap(state, event, variable, two))?
            }
            Rows::Condition(rows) => {
                let holding = judge::condition_rows(rows, table.class_read, &after);
                condition_value(rows, holding, Side::After, state, variable)?
            }
        };
    }
    Ok(after)
}

/// The value of the row that holds, or the old one; the two rows where two hold.
fn event_value(rows: &[Row<Event>], holding: Holding, old: u32) -> Result<u32, (usize, usize)> {
    match holding {
        Holding::None => Ok(old),
        Holding::One(row) => Ok(rows[row].value),
        Holding::Two(first, second) => Err((first, second)),
    }
}

fn condition_value(
    rows: &[Row<Condition>],
    holding: Holding,
    side: Side,
    state: u32,
    variable: usize,
) -> Result<u32, Refusal> {
    match holding {
        Holding::None => Err(refusal::gap(side, state, variable)),
        Holding::One(row) => Ok(rows[row].value),
        Holding::Two(first, second) => Err(refusal::condition_overlap(side, state, variable, (first, second))),
    }
}

/// The events enabled where the variables have these values, by variable, then value.
pub fn enabled_events<'a>(set: &'a Set, values: &'a Values) -> impl Iterator<Item = InputEvent> + 'a {
    (0..set.variable_count()).filter(|&variable| set.sheet.is_monitored(variable)).flat_map(move |variable| {
        (0..set.size(variable))
            .filter(move |&value| value != values[variable])
            .map(move |value| InputEvent { variable, value })
    })
}

/// The event of a word that is enabled where the variables have these values: kind 11, no spare bits, a monitored
/// variable, another value of its range.
pub fn enabled_event(set: &Set, values: &Values, word: u32) -> Option<InputEvent> {
    if word::kind(word) != word::INPUT_EVENT || word::has_spare_bits(word) {
        return None;
    }
    let event = InputEvent { variable: word::field(word, 27, 20) as usize, value: word::field(word, 7, 0) };
    let monitored = set.sheet.is_monitored(event.variable);
    (monitored && event.value < set.size(event.variable) && event.value != values[event.variable]).then_some(event)
}
