//! Sets built to pass: condition tables that divide the states, event rows that can't hold together, assertions that
//! every step keeps.

use super::assertions;
use super::formula::{self, Scope};
use super::shape::{Role, Shape};
use crate::limits;
use crate::random::Random;
use crate::syntax::{Change, Condition, Event, Row, Rows, Sheet, Table};

/// Rows of a table may name a mode only if there are at most so many modes.
const MODES_NAMED: u32 = 10;

pub fn sheet(random: &mut Random) -> Sheet {
    let shape = Shape::new(random);
    of_shape(random, &shape)
}

/// One with several inputs and some hundred states.
pub fn middle_sheet(random: &mut Random) -> Sheet {
    let shape = Shape::middle(random);
    of_shape(random, &shape)
}

fn of_shape(random: &mut Random, shape: &Shape) -> Sheet {
    // Tables in number order, as document 02 asks.
    let tabled = (0..shape.count()).filter(|&variable| shape.roles[variable] != Role::Input);
    let tables = tabled.map(|variable| table(random, shape, variable)).collect();
    let mut sheet = Sheet { variables: shape.variables.clone(), tables, assertions: Vec::new() };
    assertions::add(random, &shape.past(), &mut sheet);
    sheet
}

fn table(random: &mut Random, shape: &Shape, variable: usize) -> Table {
    let class_read = shape.class_read(random, variable);
    let builder = Builder {
        now: shape.now(variable),
        past: shape.past(),
        modes: class_read.map(|class| shape.variables[class].size),
        size: shape.variables[variable].size,
        plain: shape.plain,
    };
    let rows = match shape.roles[variable] {
        Role::ConditionTable => Rows::Condition(builder.condition_rows(random)),
        Role::ModeTable => Rows::Mode(builder.event_rows(random)),
        _ => Rows::Event(builder.event_rows(random)),
    };
    Table { variable, class_read, rows }
}

/// A mode, or every mode, with a condition.
type Cell = (Option<u32>, Condition);

/// What the rows of one table are made from.
struct Builder<'a> {
    now: Scope<'a>,
    past: Scope<'a>,
    modes: Option<u32>,
    size: u32,
    plain: bool,
}

impl Builder<'_> {
    /// Cells of which exactly one is true in every state.
    fn cells(&self, random: &mut Random, scope: &Scope, modes: Option<u32>) -> Vec<Cell> {
        let named = modes.filter(|&modes| modes <= MODES_NAMED);
        let splits = if self.plain { 0 } else { random.below(3) };
        let mut cells = Vec::new();
        for part in formula::partition(random, scope, splits) {
            match named {
                Some(modes) if self.plain || random.chance(75) => {
                    (0..modes).for_each(|mode| cells.extend(self.mode_cells(random, scope, mode, &part)));
                }
                _ => cells.push((None, part)),
            }
        }
        random.shuffle(&mut cells);
        cells
    }

    fn mode_cells(&self, random: &mut Random, scope: &Scope, mode: u32, part: &Condition) -> Vec<Cell> {
        if random.chance(75) {
            return vec![(Some(mode), part.clone())];
        }
        formula::halves(random, scope, part.clone()).map(|half| (Some(mode), half)).to_vec()
    }

    fn condition_rows(&self, random: &mut Random) -> Vec<Row<Condition>> {
        let mut cells = self.cells(random, &self.now, self.modes);
        if cells.len() > limits::ROWS {
            cells = self.cells(random, &self.now, None);
        }
        let row = |(mode, condition)| {
            let formula = formula::disguise(random, condition);
            Row { mode, value: random.value_below(self.size), formula }
        };
        cells.into_iter().map(row).collect()
    }

    /// Rows of different cells differ in mode or guard, and rows of one cell in the direction of one change.
    fn event_rows(&self, random: &mut Random) -> Vec<Row<Event>> {
        let mut rows = Vec::new();
        for (mode, guard) in self.cells(random, &self.past, self.modes) {
            for formula in self.cell_events(random, guard) {
                rows.push(Row { mode, value: random.value_below(self.size), formula });
            }
        }
        rows.truncate(limits::ROWS);
        if rows.is_empty() || (rows.len() < limits::ROWS && random.chance(10)) {
            rows.push(Row { mode: None, value: random.value_below(self.size), formula: Event::Never });
        }
        rows
    }

    /// Events with this guard that can't be true in one step.
    fn cell_events(&self, random: &mut Random, guard: Condition) -> Vec<Event> {
        let c = self.changing(random);
        match random.below(20) {
            0..=2 => Vec::new(),
            3..=6 => [Change::ToTrue, Change::ToFalse]
                .map(|change| Event::Change { change, c: c.clone(), d: guard.clone() })
                .to_vec(),
            7..=9 => {
                let other = self.changing(random);
                let first = formula::change(random, c, guard.clone());
                vec![Event::Or(Box::new(first), Box::new(formula::change(random, other, guard)))]
            }
            10 => {
                let change = formula::change(random, c, guard);
                vec![Event::Or(Box::new(Event::Never), Box::new(change))]
            }
            _ => {
                let guard = formula::disguise(random, guard);
                vec![formula::change(random, c, guard)]
            }
        }
    }

    fn changing(&self, random: &mut Random) -> Condition {
        formula::condition(random, &self.now, if self.plain { 1 } else { 2 })
    }
}
