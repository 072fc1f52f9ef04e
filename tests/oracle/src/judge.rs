//! The truth of conditions and events, and the rows that hold.

use crate::state::Values;
use crate::syntax::{Change, Condition, Event, Row, Test};

pub fn condition(condition: &Condition, values: &Values) -> bool {
    match condition {
        Condition::Test { variable, test: Test::Equals, value } => values[*variable] == *value,
        Condition::Test { variable, test: Test::AtMost, value } => values[*variable] <= *value,
        Condition::Constant(truth) => *truth,
        Condition::Not(only) => !self::condition(only, values),
        Condition::And(first, second) => self::condition(first, values) && self::condition(second, values),
        Condition::Or(first, second) => self::condition(first, values) || self::condition(second, values),
    }
}

/// @T(c) WHEN d is true if c is false before, c true after and d true before; @F(c) is @T(not c).
pub fn event(event: &Event, before: &Values, after: &Values) -> bool {
    match event {
        Event::Change { change, c, d } => {
            let was = condition(c, before);
            let is = condition(c, after);
            let changed = match change {
                Change::ToTrue => !was && is,
                Change::ToFalse => was && !is,
            };
            changed && condition(d, before)
        }
        Event::Or(first, second) => self::event(first, before, after) || self::event(second, before, after),
        Event::Never => false,
    }
}

/// Which rows of a table hold: the lowest two are all that can be shown.
#[derive(Clone, Copy, Debug, PartialEq, Eq)]
pub enum Holding {
    None,
    One(usize),
    Two(usize, usize),
}

/// A row of type 1 or 2 holds if its mode is the mode before and its event is true.
pub fn event_rows(rows: &[Row<Event>], class: Option<usize>, before: &Values, after: &Values) -> Holding {
    lowest_two(rows, |row| mode_is(row.mode, class, before) && event(&row.formula, before, after))
}

/// A row of type 3 holds if its mode and its condition are true in the same state.
pub fn condition_rows(rows: &[Row<Condition>], class: Option<usize>, values: &Values) -> Holding {
    lowest_two(rows, |row| mode_is(row.mode, class, values) && condition(&row.formula, values))
}

fn mode_is(mode: Option<u32>, class: Option<usize>, values: &Values) -> bool {
    match (mode, class) {
        (Some(mode), Some(class)) => values[class] == mode,
        _ => true,
    }
}

fn lowest_two<Formula>(rows: &[Row<Formula>], holds: impl Fn(&Row<Formula>) -> bool) -> Holding {
    let mut holding = (0..rows.len()).filter(|&index| holds(&rows[index]));
    match (holding.next(), holding.next()) {
        (Some(first), Some(second)) => Holding::Two(first, second),
        (Some(only), None) => Holding::One(only),
        _ => Holding::None,
    }
}
