//! Random conditions and events, and conditions that divide all states between them.

use crate::random::Random;
use crate::syntax::{Change, Condition, Event, Test, Variable};

/// The variables that a formula may name.
pub struct Scope<'a> {
    pub variables: &'a [Variable],
    pub names: Vec<usize>,
    /// Tests that the tables of a set have in common, so that they act in the same steps.
    pub shared: &'a [Condition],
}

impl Scope<'_> {
    pub fn of_all(variables: &[Variable]) -> Scope<'_> {
        Scope { variables, names: (0..variables.len()).collect(), shared: &[] }
    }
}

pub fn not(condition: Condition) -> Condition {
    Condition::Not(Box::new(condition))
}

pub fn and(first: Condition, second: Condition) -> Condition {
    Condition::And(Box::new(first), Box::new(second))
}

pub fn or(first: Condition, second: Condition) -> Condition {
    Condition::Or(Box::new(first), Box::new(second))
}

pub fn equals(variable: usize, value: u32) -> Condition {
    Condition::Test { variable, test: Test::Equals, value }
}

pub fn test(random: &mut Random, scope: &Scope) -> Condition {
    if scope.names.is_empty() {
        return Condition::Constant(random.chance(50));
    }
    if !scope.shared.is_empty() && random.chance(55) {
        let shared = random.pick(scope.shared);
        if matches!(shared, Condition::Test { variable, .. } if scope.names.contains(variable)) {
            return shared.clone();
        }
    }
    let variable = *random.pick(&scope.names);
    let value = random.value_below(scope.variables[variable].size);
    let test = if random.chance(65) { Test::Equals } else { Test::AtMost };
    Condition::Test { variable, test, value }
}

/// A condition of at most the depth given.
pub fn condition(random: &mut Random, scope: &Scope, depth: usize) -> Condition {
    if depth <= 1 || random.chance(35) {
        return if random.chance(96) { test(random, scope) } else { Condition::Constant(random.chance(50)) };
    }
    let first = condition(random, scope, depth - 1);
    match random.below(5) {
        0 => not(first),
        1 | 2 => and(first, condition(random, scope, depth - 1)),
        _ => or(first, condition(random, scope, depth - 1)),
    }
}

/// Conditions of which in every state exactly one is true.
pub fn partition(random: &mut Random, scope: &Scope, splits: usize) -> Vec<Condition> {
    if splits > 0 && random.chance(25) {
        if let Some(parts) = by_value(random, scope) {
            return parts;
        }
    }
    let mut parts = vec![Condition::Constant(true)];
    for _ in 0..splits {
        let whole = parts.swap_remove(random.below(parts.len()));
        parts.extend(halves(random, scope, whole));
    }
    parts
}

/// A condition divided in two.
pub fn halves(random: &mut Random, scope: &Scope, whole: Condition) -> [Condition; 2] {
    let half = condition(random, scope, 2);
    if whole == Condition::Constant(true) && random.chance(80) {
        return [half.clone(), not(half)];
    }
    [and(whole.clone(), half.clone()), and(not(half), whole)]
}

/// One condition for each value of a variable of at most four values.
fn by_value(random: &mut Random, scope: &Scope) -> Option<Vec<Condition>> {
    let small: Vec<usize> = scope.names.iter().copied().filter(|&v| scope.variables[v].size <= 4).collect();
    if small.is_empty() {
        return None;
    }
    let variable = *random.pick(&small);
    Some((0..scope.variables[variable].size).map(|value| equals(variable, value)).collect())
}

/// Another condition that is true in the same states.
pub fn disguise(random: &mut Random, condition: Condition) -> Condition {
    match random.below(8) {
        0 => not(not(condition)),
        1 => and(condition, Condition::Constant(true)),
        2 => or(Condition::Constant(false), condition),
        3 => and(condition.clone(), condition),
        _ => condition,
    }
}

/// A condition that is true in every state.
pub fn tautology(random: &mut Random, scope: &Scope) -> Condition {
    let condition = condition(random, scope, 2);
    match random.below(3) {
        0 => Condition::Constant(true),
        1 => or(condition.clone(), not(condition)),
        _ => not(and(not(condition.clone()), condition)),
    }
}

pub fn change(random: &mut Random, c: Condition, d: Condition) -> Event {
    let change = if random.chance(60) { Change::ToTrue } else { Change::ToFalse };
    Event::Change { change, c, d }
}

/// An event with any guard; `now` may be named inside c, `past` inside d.
pub fn event(random: &mut Random, now: &Scope, past: &Scope, depth: usize) -> Event {
    if random.chance(5) {
        return Event::Never;
    }
    if depth > 1 && random.chance(20) {
        let first = event(random, now, past, depth - 1);
        return Event::Or(Box::new(first), Box::new(event(random, now, past, depth - 1)));
    }
    let c = condition(random, now, 2);
    let d = if random.chance(30) { Condition::Constant(true) } else { condition(random, past, 2) };
    change(random, c, d)
}
