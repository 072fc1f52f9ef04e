//! How often each answer comes over the sets of a seed.

use crate::check::{check, typed_steps};
use crate::generate::{self, calls};
use crate::perform::perform;
use crate::random::Random;
use crate::read::read;
use crate::refusal;
use std::fmt;

/// Refusals are numbered 1 to 17 and 21; 0 stands for an answer that isn't refused.
const ANSWERS: usize = 22;

#[derive(Clone, Debug, Default)]
pub struct Histogram {
    pub sets: usize,
    /// Sets that clear refusals 1 to 9 and 21.
    pub reading: usize,
    /// Answers of check, by refusal.
    pub checks: [usize; ANSWERS],
    /// Answers of one other call on each set, by refusal.
    pub calls: [usize; ANSWERS],
    /// The typed steps of each set that reads.
    pub steps: Vec<u64>,
}

pub fn histogram(seed: u64, count: u64) -> Histogram {
    let mut histogram = Histogram::default();
    for index in 0..count {
        let mut random = Random::of_item(seed, index);
        let words = generate::set(&mut random);
        histogram.sets += 1;
        if let Ok(set) = read(&words) {
            histogram.reading += 1;
            histogram.steps.push(typed_steps(&set));
        }
        histogram.checks[check(&words).refusal_number() as usize] += 1;
        let call = calls::call(&mut random, &words, calls::FULL);
        histogram.calls[perform(&words, &call).refusal_number() as usize] += 1;
    }
    histogram.steps.sort_unstable();
    histogram
}

impl Histogram {
    pub fn passing(&self) -> usize {
        self.checks[0]
    }

    pub fn median_steps(&self) -> u64 {
        self.steps.get(self.steps.len() / 2).copied().unwrap_or(0)
    }
}

impl fmt::Display for Histogram {
    fn fmt(&self, f: &mut fmt::Formatter) -> fmt::Result {
        let percent = |part: usize, whole: usize| 100.0 * part as f64 / whole.max(1) as f64;
        writeln!(f, "sets {}", self.sets)?;
        writeln!(f, "check pass {} {:.2}%", self.passing(), percent(self.passing(), self.sets))?;
        for number in refusal::OF_CHECK {
            let count = self.checks[number as usize];
            writeln!(f, "check refusal {number} {count} {:.2}%", percent(count, self.sets))?;
        }
        for number in (0..=17).chain([21]) {
            let count = self.calls[number];
            writeln!(f, "other calls refusal {number} {count} {:.2}%", percent(count, self.sets))?;
        }
        let passing = percent(self.passing(), self.reading);
        writeln!(f, "reading {} of which {} pass {passing:.2}%", self.reading, self.passing())?;
        let most = self.steps.last().copied().unwrap_or(0);
        writeln!(f, "typed steps of a reading set: median {} most {most}", self.median_steps())
    }
}
