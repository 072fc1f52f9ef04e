//! Answers as text: decimal, one blank between fields.

use crate::answer::Answer;

pub fn answer_line(answer: &Answer) -> String {
    match answer {
        Answer::Pass { states, steps, assertions } => format!("PASS {states} {steps} {assertions}"),
        Answer::State(state) => format!("STATE {state}"),
        Answer::Values(count) => format!("VALUES {count}"),
        Answer::Refuse(refusal) => {
            let fields = std::iter::once(u64::from(refusal.number)).chain(refusal.carried.iter().copied());
            format!("REFUSE {}", join(fields))
        }
    }
}

pub fn join<Number: ToString>(numbers: impl IntoIterator<Item = Number>) -> String {
    numbers.into_iter().map(|number| number.to_string()).collect::<Vec<_>>().join(" ")
}
