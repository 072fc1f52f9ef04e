//! What a call gives.

use crate::refusal::Refusal;

#[derive(Clone, Debug, PartialEq, Eq)]
pub enum Answer {
    /// The numbers of states, of steps tried and of assertions.
    Pass {
        states: u32,
        steps: u64,
        assertions: u32,
    },
    State(u32),
    /// The number of bytes written.
    Values(usize),
    Refuse(Refusal),
}

impl Answer {
    /// The number of a refusal, 0 where nothing is refused.
    pub fn refusal_number(&self) -> u32 {
        match self {
            Answer::Refuse(refusal) => refusal.number,
            _ => 0,
        }
    }
}

impl From<Result<Answer, Refusal>> for Answer {
    fn from(result: Result<Answer, Refusal>) -> Answer {
        result.unwrap_or_else(Answer::Refuse)
    }
}
