//! The refusals of documents 01 and 02: the number of each and what it carries, those of the words and of the set in the
//! order in which they are tested.

/// The refusals that check can give.
pub const OF_CHECK: [u32; 15] = [1, 2, 3, 4, 5, 6, 7, 8, 9, 10, 11, 12, 13, 14, 21];

#[derive(Clone, Debug, PartialEq, Eq)]
pub struct Refusal {
    pub number: u32,
    pub carried: Vec<u64>,
}

/// An input event (v, k): monitored variable and new value.
#[derive(Clone, Copy, Debug, PartialEq, Eq)]
pub struct InputEvent {
    pub variable: usize,
    pub value: u32,
}

/// Side 0 is the state given, side 1 the one after a step, which carries the state before.
#[derive(Clone, Copy, Debug, PartialEq, Eq)]
pub enum Side {
    Given = 0,
    After = 1,
}

fn refusal(number: u32, carried: &[u64]) -> Refusal {
    Refusal { number, carried: carried.to_vec() }
}

pub fn length(words: usize) -> Refusal {
    refusal(1, &[words as u64])
}

/// Kind not allowed here, spare bits, or (with the length for index) an early end.
pub fn misplaced(index: usize) -> Refusal {
    refusal(2, &[index as u64])
}

pub fn out_of_range(index: usize) -> Refusal {
    refusal(3, &[index as u64])
}

pub fn over_limit(index: usize) -> Refusal {
    refusal(4, &[index as u64])
}

pub fn unfit_table(index: usize) -> Refusal {
    refusal(5, &[index as u64])
}

/// The table of a lower variable than that of the table before.
pub fn out_of_order(index: usize) -> Refusal {
    refusal(21, &[index as u64])
}

pub fn no_table(variable: usize) -> Refusal {
    refusal(6, &[variable as u64])
}

pub fn initial_not_zero(variable: usize) -> Refusal {
    refusal(7, &[variable as u64])
}

pub fn too_many_states(variable: usize) -> Refusal {
    refusal(8, &[variable as u64])
}

pub fn cycle(variable: usize, length: usize) -> Refusal {
    refusal(9, &[variable as u64, length as u64])
}

pub fn gap(side: Side, state: u32, variable: usize) -> Refusal {
    refusal(10, &[side as u64, state.into(), variable as u64])
}

pub fn condition_overlap(side: Side, state: u32, variable: usize, rows: (usize, usize)) -> Refusal {
    refusal(11, &[side as u64, state.into(), variable as u64, rows.0 as u64, rows.1 as u64])
}

pub fn event_overlap(state: u32, event: InputEvent, variable: usize, rows: (usize, usize)) -> Refusal {
    let InputEvent { variable: input, value } = event;
    refusal(12, &[state.into(), input as u64, value.into(), variable as u64, rows.0 as u64, rows.1 as u64])
}

pub fn false_initially(assertion: usize) -> Refusal {
    refusal(13, &[assertion as u64])
}

pub fn broken(assertion: usize, state: u32, event: InputEvent) -> Refusal {
    refusal(14, &[assertion as u64, state.into(), event.variable as u64, event.value.into()])
}

pub fn no_such_state(state: u32) -> Refusal {
    refusal(15, &[state.into()])
}

pub fn not_enabled(index: usize) -> Refusal {
    refusal(16, &[index as u64])
}

/// Elements of the lent list that are needed, or 4,097 for too many events.
pub fn too_little_room(needed: usize) -> Refusal {
    refusal(17, &[needed as u64])
}
