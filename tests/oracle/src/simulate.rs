//! Start, step and run.

use crate::answer::Answer;
use crate::limits;
use crate::read::{read, Set};
use crate::refusal::{self, Refusal};
use crate::state;
use crate::step::{after, enabled_event, settle};

/// The initial state, which is not examined.
pub fn start(words: &[u32]) -> Answer {
    read(words).map(|set| Answer::State(state::initial_state(&set))).into()
}

pub fn step(words: &[u32], state: u32, event: u32) -> Answer {
    try_step(words, state, event).into()
}

fn try_step(words: &[u32], state: u32, event: u32) -> Result<Answer, Refusal> {
    let set = read(words)?;
    require_typed(&set, state)?;
    do_event(&set, state, 0, event).map(Answer::State)
}

/// The state after each event goes to the lent list from the place on. A refused run keeps those of the events done.
pub fn run(words: &[u32], state: u32, events: &[u32], trace: &mut [u32], place: usize) -> Answer {
    try_run(words, state, events, trace, place).into()
}

fn try_run(words: &[u32], state: u32, events: &[u32], trace: &mut [u32], place: usize) -> Result<Answer, Refusal> {
    let set = read(words)?;
    if events.len() > limits::EVENTS {
        return Err(refusal::too_little_room(limits::EVENTS + 1));
    }
    // A place at or past the end leaves no room, which is enough for no events.
    let room = trace.get_mut(place..).unwrap_or_default();
    if room.len() < events.len() {
        return Err(refusal::too_little_room(events.len()));
    }
    require_typed(&set, state)?;
    let mut last = state;
    for (index, &event) in events.iter().enumerate() {
        last = do_event(&set, last, index, event)?;
        room[index] = last;
    }
    Ok(Answer::State(last))
}

pub(crate) fn require_typed(set: &Set, state: u32) -> Result<(), Refusal> {
    if state::is_typed(set, state) {
        Ok(())
    } else {
        Err(refusal::no_such_state(state))
    }
}

/// One event word from a typed state: refusal 16, then the old state examined, then the step. After the first event of
/// a run the old state has been examined as the state after, so it can't be refused here.
fn do_event(set: &Set, state: u32, index: usize, word: u32) -> Result<u32, Refusal> {
    let held = state::held_values(set, state);
    let event = enabled_event(set, &held, word).ok_or(refusal::not_enabled(index))?;
    let before = settle(set, state)?;
    let after = after(set, state, &before, event)?;
    Ok(state::state_number(set, &after))
}
