//! A generated call, carried out.

use crate::answer::Answer;
use crate::calls::{rows, values};
use crate::check::check;
use crate::generate::calls::Call;
use crate::probe;
use crate::simulate::{run, start, step};

/// The answer of a call; lent lists are filled as the probe fills them. Rows are never refused and answer by the length
/// of the part.
pub fn perform(words: &[u32], call: &Call) -> Answer {
    match call {
        Call::Check => check(words),
        Call::Start => start(words),
        Call::Step { state, event } => step(words, *state, *event),
        Call::Run { state, events, lent, place } => {
            run(words, *state, events, &mut vec![probe::TRACE_FILL; *lent], *place as usize)
        }
        Call::Values { state, lent } => values(words, *state, &mut vec![probe::BYTE_FILL; *lent]),
        Call::Rows { variable } => Answer::Values(rows(words, *variable as usize).len()),
    }
}
