//! Beside the simulator: the values of a state and the rows of a table.

use crate::answer::Answer;
use crate::read::read;
use crate::refusal::{self, Refusal};
use crate::simulate::require_typed;
use crate::step;

/// One byte per variable from the front of the lent list.
pub fn values(words: &[u32], state: u32, lent: &mut [u8]) -> Answer {
    try_values(words, state, lent).into()
}

fn try_values(words: &[u32], state: u32, lent: &mut [u8]) -> Result<Answer, Refusal> {
    let set = read(words)?;
    let count = set.variable_count();
    if lent.len() < count {
        return Err(refusal::too_little_room(count));
    }
    require_typed(&set, state)?;
    let values = step::settle(&set, state)?;
    for (byte, &value) in lent.iter_mut().zip(&values[..count]) {
        *byte = value as u8; // A size is at most 256.
    }
    Ok(Answer::Values(count))
}

/// The table of a variable as part of the caller's words, from its table word on; empty if there is none.
pub fn rows(words: &[u32], variable: usize) -> &[u32] {
    let Ok(set) = read(words) else { return &[] };
    let place = set.sheet.tables.iter().position(|table| table.variable == variable);
    place.map_or(&[], |place| &words[set.parts[place].clone()])
}
