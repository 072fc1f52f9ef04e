//! The machine host: check and step over bytes, with numbers for answers.

use crate::answer::Answer;
use crate::bytes;
use crate::check::check;
use crate::limits;
use crate::simulate::step;

/// Added to the number of a refused step.
const REFUSED: u32 = 1 << 31;
/// A length that makes no set.
const LENGTH: u32 = 1;

/// 0 or the number of the refusal.
pub fn host_check(bytes: &[u8]) -> u32 {
    words(bytes).map_or(LENGTH, |words| check(&words).refusal_number())
}

/// The state after the step, or 2^31 plus the number of the refusal.
pub fn host_step(bytes: &[u8], state: u32, event: u32) -> u32 {
    match words(bytes).map(|words| step(&words, state, event)) {
        Some(Answer::State(state)) => state,
        Some(refused) => REFUSED + refused.refusal_number(),
        None => REFUSED + LENGTH,
    }
}

fn words(bytes: &[u8]) -> Option<Vec<u32>> {
    let whole = bytes.len().is_multiple_of(4);
    let fits = bytes.len() <= 4 * limits::WORDS;
    (whole && fits).then(|| bytes::from_bytes(bytes).collect())
}
