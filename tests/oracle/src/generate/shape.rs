//! The variables of a random set, and which of them a table may name.

use super::formula::{self, Scope};
use crate::limits;
use crate::random::Random;
use crate::syntax::{Class, Condition, Variable};

/// What a variable's value comes from.
#[derive(Clone, Copy, Debug, PartialEq, Eq)]
pub enum Role {
    Input,
    ModeTable,
    EventTable,
    ConditionTable,
}

pub struct Shape {
    pub variables: Vec<Variable>,
    pub roles: Vec<Role>,
    /// A hidden order: a table that reads only inputs and variables of lower rank makes no cycle.
    rank: Vec<usize>,
    /// Tests that tables have in common.
    shared: Vec<Condition>,
    /// A row or two for each mode and short formulas: a change of mode is then often met by the other tables.
    pub plain: bool,
}

/// Tests in common of one set.
const SHARED: usize = 3;
/// Typed steps of one set.
const MOST_STEPS: u64 = 400_000;

impl Shape {
    pub fn new(random: &mut Random) -> Shape {
        let plain = random.chance(25);
        let most_states = if plain { 100 } else { most_states(random) };
        let roles = if plain { plain_roles(random) } else { wanted_roles(random) };
        Shape::of_roles(random, &roles, plain, most_states)
    }

    /// Several inputs and some hundred states, so that the order of the search has something to show.
    pub fn middle(random: &mut Random) -> Shape {
        let most_states = random.between(100, 700) as u64;
        let roles = middle_roles(random);
        Shape::of_roles(random, &roles, false, most_states)
    }

    fn of_roles(random: &mut Random, roles: &[Role], plain: bool, most_states: u64) -> Shape {
        let mut shape = Shape { variables: vec![], roles: vec![], rank: vec![], shared: vec![], plain };
        for &wanted in roles {
            shape.add(random, wanted, most_states);
        }
        shape.rank = (0..shape.count()).collect();
        random.shuffle(&mut shape.rank);
        shape.shared = (0..SHARED).map(|_| formula::test(random, &Scope::of_all(&shape.variables))).collect();
        shape
    }

    /// A variable that would make too many states or steps gets a condition table instead.
    fn add(&mut self, random: &mut Random, wanted: Role, most_states: u64) {
        let size = if self.plain { random.between(2, 3) as u32 } else { size(random, wanted) };
        let states = self.states() * u64::from(size);
        let events = self.events() + if wanted == Role::Input { u64::from(size) - 1 } else { 0 };
        let too_large = states > most_states || states * events > MOST_STEPS;
        let role = if too_large { Role::ConditionTable } else { wanted };
        let initial = if role == Role::ConditionTable { 0 } else { random.value_below(size) };
        self.variables.push(Variable { class: class(random, role), size, initial });
        self.roles.push(role);
    }

    fn states(&self) -> u64 {
        self.sizes_where(|role| role != Role::ConditionTable).iter().product()
    }

    /// Events enabled in each state.
    fn events(&self) -> u64 {
        self.sizes_where(|role| role == Role::Input).iter().map(|size| size - 1).sum()
    }

    fn sizes_where(&self, counts: fn(Role) -> bool) -> Vec<u64> {
        let counted = self.variables.iter().zip(&self.roles).filter(|(_, &role)| counts(role));
        counted.map(|(variable, _)| u64::from(variable.size)).collect()
    }

    pub fn count(&self) -> usize {
        self.variables.len()
    }

    /// What a table may read of the state after a step without making a cycle.
    pub fn now(&self, variable: usize) -> Scope<'_> {
        let names = (0..self.count()).filter(|&other| self.may_read(variable, other)).collect();
        Scope { variables: &self.variables, names, shared: &self.shared }
    }

    /// What a table may read of the state before.
    pub fn past(&self) -> Scope<'_> {
        Scope { variables: &self.variables, names: (0..self.count()).collect(), shared: &self.shared }
    }

    fn may_read(&self, variable: usize, other: usize) -> bool {
        self.roles[other] == Role::Input || self.rank[other] < self.rank[variable]
    }

    /// A mode class for the table of a variable, or none.
    pub fn class_read(&self, random: &mut Random, variable: usize) -> Option<usize> {
        let role = self.roles[variable];
        if role == Role::ModeTable {
            return Some(variable);
        }
        let past = role == Role::EventTable;
        let classes: Vec<usize> = (0..self.count())
            .filter(|&other| self.roles[other] == Role::ModeTable && (past || self.may_read(variable, other)))
            .collect();
        (!classes.is_empty() && (self.plain || random.chance(70))).then(|| *random.pick(&classes))
    }
}

/// Few states for most sets, so that thousands can be checked in a second, and many for some.
fn most_states(random: &mut Random) -> u64 {
    let most = match random.below(1000) {
        0..=599 => random.between(4, 64),
        600..=949 => random.between(64, 300),
        950..=995 => random.between(300, 3000),
        996..=997 => random.between(3000, 65_536),
        _ => 65_536,
    };
    most as u64
}

fn variable_count(random: &mut Random) -> usize {
    match random.below(100) {
        0..=2 => 0,
        3..=9 => random.between(1, 2),
        10..=84 => random.between(3, 8),
        85..=97 => random.between(9, 14),
        _ => random.between(15, limits::VARIABLES),
    }
}

/// Now and then a set has only inputs, only condition variables, or no input at all; else one input at least.
fn wanted_roles(random: &mut Random) -> Vec<Role> {
    use Role::{ConditionTable, EventTable, Input, ModeTable};
    let (first, others): (Role, &[Role]) = match random.below(100) {
        0..=2 => (Input, &[Input]),
        3..=5 => (ConditionTable, &[ConditionTable]),
        6..=8 => (ModeTable, &[ModeTable, EventTable, ConditionTable]),
        9..=49 => (Input, &[Input, Input, ModeTable, EventTable, ConditionTable]),
        _ => (Input, &[Input, Input, ModeTable, ModeTable, EventTable, EventTable, ConditionTable, ConditionTable]),
    };
    let mut roles: Vec<Role> = (0..variable_count(random)).map(|_| *random.pick(others)).collect();
    if !roles.is_empty() {
        let at = random.below(roles.len());
        roles[at] = first;
    }
    roles
}

/// An input or two, a mode class, and what may follow it.
fn plain_roles(random: &mut Random) -> Vec<Role> {
    let mut roles = vec![Role::Input, Role::ModeTable, Role::EventTable];
    roles.extend([Role::Input, Role::ConditionTable].iter().filter(|_| random.chance(50)));
    random.shuffle(&mut roles);
    roles
}

/// Two inputs at least and a table of each type at least.
fn middle_roles(random: &mut Random) -> Vec<Role> {
    use Role::{ConditionTable, EventTable, Input, ModeTable};
    let mut roles = vec![Input, Input, ModeTable, EventTable, ConditionTable];
    roles.extend([Input, Input, EventTable, ConditionTable, ConditionTable].iter().filter(|_| random.chance(50)));
    random.shuffle(&mut roles);
    roles
}

fn size(random: &mut Random, role: Role) -> u32 {
    let largest = if role == Role::ModeTable { limits::MODES } else { limits::SIZE };
    let size = match random.below(100) {
        0..=84 => random.between(2, 4),
        85..=96 => random.between(5, 9),
        97..=98 => random.between(10, largest as usize),
        _ => largest as usize,
    };
    size as u32
}

fn class(random: &mut Random, role: Role) -> Class {
    match role {
        Role::Input => Class::Monitored,
        Role::ModeTable => Class::ModeClass,
        _ if random.chance(50) => Class::Term,
        _ => Class::Controlled,
    }
}
