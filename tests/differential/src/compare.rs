//! The comparison.

use crate::counts::{call_of, ending_of, Counts};
use crate::program::printed;
use std::fmt;
use std::path::Path;

/// What a program is compared with.
#[derive(Clone, Copy, Debug)]
pub struct Oracle {
    /// Exactly what the program must print for an input.
    pub output: fn(&[u8]) -> Vec<u8>,
    /// What an input and its output are counted under.
    pub group: fn(&[u8], &str) -> &'static str,
}

pub const PROBE: Oracle =
    Oracle { output: |input| oracle::probe(input).into_bytes(), group: |input, _| call_of(input) };

pub const PROGRAM: Oracle = Oracle { output: oracle::program, group: |_, output| ending_of(output) };

/// What a series of inputs showed.
#[derive(Clone, Debug, Default)]
pub struct Comparison {
    pub inputs: u64,
    pub differences: u64,
    pub first: Option<Difference>,
    /// Of the oracle's answers.
    pub counts: Counts,
}

/// An input on which the two outputs differ.
#[derive(Clone, Debug)]
pub struct Difference {
    pub index: usize,
    pub input: Vec<u8>,
    pub oracle: Vec<u8>,
    /// The output, or why there is none.
    pub program: Result<Vec<u8>, String>,
}

/// Compares the program with the oracle on a series of inputs.
pub fn compare(program: &Path, oracle: Oracle, inputs: impl Iterator<Item = Vec<u8>>) -> Comparison {
    let mut comparison = Comparison::default();
    for (index, input) in inputs.enumerate() {
        let expected = (oracle.output)(&input);
        let got = printed(program, &input);
        comparison.inputs += 1;
        comparison.counts.add(oracle, &input, &expected);
        if got.as_deref() == Ok(&expected[..]) {
            continue;
        }
        comparison.differences += 1;
        comparison.first.get_or_insert(Difference { index, input, oracle: expected, program: got });
    }
    comparison
}

impl fmt::Display for Comparison {
    fn fmt(&self, f: &mut fmt::Formatter) -> fmt::Result {
        if let Some(difference) = &self.first {
            write!(f, "{difference}")?;
        }
        write!(f, "{}", self.counts)?;
        writeln!(f, "{} inputs, {} differences", self.inputs, self.differences)
    }
}

impl fmt::Display for Difference {
    fn fmt(&self, f: &mut fmt::Formatter) -> fmt::Result {
        let hex: String = self.input.iter().map(|byte| format!("{byte:02x}")).collect();
        writeln!(f, "first difference, at input {}:\n{hex}", self.index)?;
        writeln!(f, "oracle:\n{}", String::from_utf8_lossy(&self.oracle))?;
        match &self.program {
            Ok(output) => writeln!(f, "program:\n{}", String::from_utf8_lossy(output)),
            Err(reason) => writeln!(f, "program: {reason}"),
        }
    }
}
