//! Words from what they say: the reverse of reading, for the generator and the tests.

use crate::syntax::{Change, Class, Condition, Event, Row, Rows, Sheet, Table, Test, Variable};
use crate::word;

pub const NOT: u32 = word::NOT << 28;
pub const AND: u32 = word::AND << 28;
pub const OR: u32 = word::OR << 28;
pub const AT_T: u32 = word::CHANGE << 28 | 1 << 24;
pub const AT_F: u32 = word::CHANGE << 28 | 2 << 24;
pub const FALSE: u32 = word::CONSTANT << 28;
pub const TRUE: u32 = word::CONSTANT << 28 | 1;
pub const ASSERTION: u32 = word::ASSERTION << 28 | 1 << 24;

pub const fn variable(class: u32, size: u32, initial: u32) -> u32 {
    word::VARIABLE << 28 | class << 24 | size << 12 | initial
}

pub const fn table(table_type: u32, variable: u32, class_read: u32) -> u32 {
    word::TABLE << 28 | table_type << 24 | variable << 16 | class_read << 8
}

pub const fn row(mode: u32, value: u32) -> u32 {
    word::ROW << 28 | mode << 20 | value
}

pub const fn test(variable: u32, test: u32, value: u32) -> u32 {
    word::TEST << 28 | variable << 20 | test << 16 | value
}

pub const fn equals(variable: u32, value: u32) -> u32 {
    test(variable, 0, value)
}

pub fn input_event(variable: u32, value: u32) -> u32 {
    word::INPUT_EVENT << 28 | variable << 20 | value
}

/// All words of a set.
pub fn sheet(sheet: &Sheet) -> Vec<u32> {
    let mut words: Vec<u32> = sheet.variables.iter().map(write_variable).collect();
    sheet.tables.iter().for_each(|table| write_table(table, &mut words));
    for assertion in &sheet.assertions {
        words.push(ASSERTION);
        write_condition(assertion, &mut words);
    }
    words
}

fn write_variable(variable: &Variable) -> u32 {
    let class = match variable.class {
        Class::Monitored => 1,
        Class::ModeClass => 2,
        Class::Term => 3,
        Class::Controlled => 4,
    };
    self::variable(class, variable.size, variable.initial)
}

fn write_table(table: &Table, words: &mut Vec<u32>) {
    let table_type = match table.rows {
        Rows::Mode(_) => 1,
        Rows::Event(_) => 2,
        Rows::Condition(_) => 3,
    };
    let class_read = table.class_read.map_or(word::NONE, |class| class as u32);
    words.push(self::table(table_type, table.variable as u32, class_read));
    match &table.rows {
        Rows::Mode(rows) | Rows::Event(rows) => write_rows(rows, write_event, words),
        Rows::Condition(rows) => write_rows(rows, write_condition, words),
    }
}

fn write_rows<Formula>(rows: &[Row<Formula>], write: fn(&Formula, &mut Vec<u32>), words: &mut Vec<u32>) {
    for row in rows {
        words.push(self::row(row.mode.unwrap_or(word::NONE), row.value));
        write(&row.formula, words);
    }
}

fn write_event(event: &Event, words: &mut Vec<u32>) {
    match event {
        Event::Change { change, c, d } => {
            words.push(if *change == Change::ToTrue { AT_T } else { AT_F });
            write_condition(c, words);
            write_condition(d, words);
        }
        Event::Or(first, second) => {
            words.push(OR);
            write_event(first, words);
            write_event(second, words);
        }
        Event::Never => words.push(FALSE),
    }
}

fn write_condition(condition: &Condition, words: &mut Vec<u32>) {
    match condition {
        Condition::Test { variable, test, value } => {
            words.push(self::test(*variable as u32, u32::from(*test == Test::AtMost), *value));
        }
        Condition::Constant(truth) => words.push(if *truth { TRUE } else { FALSE }),
        Condition::Not(only) => {
            words.push(NOT);
            write_condition(only, words);
        }
        Condition::And(first, second) => write_pair(AND, first, second, words),
        Condition::Or(first, second) => write_pair(OR, first, second, words),
    }
}

fn write_pair(operator: u32, first: &Condition, second: &Condition, words: &mut Vec<u32>) {
    words.push(operator);
    write_condition(first, words);
    write_condition(second, words);
}
