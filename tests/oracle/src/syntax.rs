//! What the words of a set say, before it is asked whether that makes sense as a whole.

#[derive(Clone, Copy, Debug, PartialEq, Eq)]
pub enum Class {
    Monitored,
    ModeClass,
    Term,
    Controlled,
}

#[derive(Clone, Copy, Debug, PartialEq, Eq)]
pub struct Variable {
    pub class: Class,
    pub size: u32,
    pub initial: u32,
}

#[derive(Clone, Copy, Debug, PartialEq, Eq)]
pub enum Test {
    Equals,
    AtMost,
}

#[derive(Clone, Debug, PartialEq, Eq)]
pub enum Condition {
    Test { variable: usize, test: Test, value: u32 },
    Constant(bool),
    Not(Box<Condition>),
    And(Box<Condition>, Box<Condition>),
    Or(Box<Condition>, Box<Condition>),
}

#[derive(Clone, Copy, Debug, PartialEq, Eq)]
pub enum Change {
    /// @T
    ToTrue,
    /// @F
    ToFalse,
}

#[derive(Clone, Debug, PartialEq, Eq)]
pub enum Event {
    /// The change of c, WHEN d.
    Change {
        change: Change,
        c: Condition,
        d: Condition,
    },
    Or(Box<Event>, Box<Event>),
    /// The constant false.
    Never,
}

/// A row; no mode stands for every mode.
#[derive(Clone, Debug, PartialEq, Eq)]
pub struct Row<Formula> {
    pub mode: Option<u32>,
    pub value: u32,
    pub formula: Formula,
}

#[derive(Clone, Debug, PartialEq, Eq)]
pub enum Rows {
    /// Type 1.
    Mode(Vec<Row<Event>>),
    /// Type 2.
    Event(Vec<Row<Event>>),
    /// Type 3.
    Condition(Vec<Row<Condition>>),
}

#[derive(Clone, Debug, PartialEq, Eq)]
pub struct Table {
    pub variable: usize,
    pub class_read: Option<usize>,
    pub rows: Rows,
}

impl Table {
    pub fn is_condition_table(&self) -> bool {
        matches!(self.rows, Rows::Condition(_))
    }
}

/// The variables, the tables in the order of the words, and the assertions.
#[derive(Clone, Debug, Default, PartialEq, Eq)]
pub struct Sheet {
    pub variables: Vec<Variable>,
    pub tables: Vec<Table>,
    pub assertions: Vec<Condition>,
}

impl Sheet {
    pub fn table_of(&self, variable: usize) -> Option<&Table> {
        self.tables.iter().find(|table| table.variable == variable)
    }

    /// Variables without a condition table are held.
    pub fn is_held(&self, variable: usize) -> bool {
        !self.table_of(variable).is_some_and(Table::is_condition_table)
    }

    pub fn is_monitored(&self, variable: usize) -> bool {
        self.variables.get(variable).is_some_and(|v| v.class == Class::Monitored)
    }
}
