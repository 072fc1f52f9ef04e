//! How many inputs of each group there were, a call of the probe or an ending of the program, and how many answers of each kind.

use crate::compare::Oracle;
use std::collections::BTreeMap;
use std::fmt;

#[derive(Clone, Debug, Default)]
pub struct Counts {
    pairs: BTreeMap<(&'static str, Answer), usize>,
}

/// What an output's first line says: its name, the number of a refusal, and what else tells kinds of answers apart.
#[derive(Clone, Debug, PartialEq, Eq, PartialOrd, Ord)]
pub struct Answer {
    name: String,
    number: u32,
    detail: &'static str,
}

impl Counts {
    pub fn add(&mut self, oracle: Oracle, input: &[u8], output: &[u8]) {
        let output = String::from_utf8_lossy(output);
        *self.pairs.entry(((oracle.group)(input, &output), Answer::of(&output))).or_default() += 1;
    }

    /// How many answers of a kind there were, the kind as it is printed.
    pub fn of(&self, kind: &str) -> usize {
        self.pairs.iter().filter(|((_, answer), _)| answer.to_string() == kind).map(|(_, count)| count).sum()
    }

    /// How many inputs of a group there were.
    pub fn of_group(&self, group: &str) -> usize {
        self.pairs.iter().filter(|((of, _), _)| *of == group).map(|(_, count)| count).sum()
    }

    fn sums<Key: Ord>(&self, key: impl Fn(&(&'static str, Answer)) -> Key) -> BTreeMap<Key, usize> {
        let mut sums = BTreeMap::new();
        for (pair, count) in &self.pairs {
            *sums.entry(key(pair)).or_default() += count;
        }
        sums
    }
}

impl Answer {
    fn of(output: &str) -> Answer {
        let fields: Vec<&str> = output.lines().next().unwrap_or("").split(' ').collect();
        let (number, detail) = match fields[..] {
            ["REFUSE", number @ ("10" | "11"), "0", ..] => (number, "side 0"),
            ["REFUSE", number @ ("10" | "11"), ..] => (number, "side 1"),
            ["REFUSE", number, ..] => (number, ""),
            ["ROWS", "0", "0"] => ("0", "empty"),
            _ => ("0", ""),
        };
        Answer { name: fields[0].to_string(), number: number.parse().unwrap_or(0), detail }
    }
}

impl fmt::Display for Answer {
    fn fmt(&self, f: &mut fmt::Formatter) -> fmt::Result {
        let mut fields = vec![self.name.clone()];
        if self.name.is_empty() {
            fields = vec!["nothing".to_string()];
        }
        if self.number != 0 {
            fields.push(self.number.to_string());
        }
        if !self.detail.is_empty() {
            fields.push(self.detail.to_string());
        }
        write!(f, "{}", fields.join(" "))
    }
}

impl fmt::Display for Counts {
    fn fmt(&self, f: &mut fmt::Formatter) -> fmt::Result {
        for (answer, count) in self.sums(|(_, answer)| answer.clone()) {
            writeln!(f, "{:16}{count:8}", answer.to_string())?;
        }
        for (group, count) in self.sums(|(group, _)| *group) {
            let answers = self.pairs.iter().filter(|((of, _), _)| *of == group);
            let answers: Vec<String> = answers.map(|((_, answer), count)| format!("{answer}: {count}")).collect();
            writeln!(f, "{group:16}{count:8} ({})", answers.join(", "))?;
        }
        Ok(())
    }
}

/// The name of the call that an input of the probe makes.
pub fn call_of(input: &[u8]) -> &'static str {
    let mut word = [0; 4];
    word.iter_mut().zip(input).for_each(|(byte, &read)| *byte = read);
    call_name(u32::from_le_bytes(word))
}

/// What the program printed after the line of the set.
pub fn ending_of(output: &str) -> &'static str {
    let mut lines = output.lines();
    let passed = lines.next().is_some_and(|line| line.starts_with("PASS"));
    match lines.last() {
        _ if !passed => "not run",
        None => "no events",
        Some(line) if line.starts_with("REFUSE 16") => "not enabled",
        Some(line) if line.starts_with("REFUSE 17") => "too many events",
        Some(line) if line.starts_with("REFUSE") => "another refusal",
        Some(_) => "all done",
    }
}

/// The calls by number, from 1 on.
const NAMES: [&str; 6] = ["start", "step", "run", "values", "rows", "check"];

fn call_name(call: u32) -> &'static str {
    call.checked_sub(1).and_then(|place| NAMES.get(place as usize)).unwrap_or(&"no call")
}

/// The number of a call, by its name.
pub fn call_number(name: &str) -> Option<u32> {
    NAMES.iter().position(|&known| known == name).map(|place| place as u32 + 1)
}

#[cfg(test)]
mod tests {
    use super::*;
    use oracle::probe;

    #[test]
    fn kinds_of_answers() {
        let kind = |output| Answer::of(output).to_string();
        assert_eq!(kind(""), "nothing");
        assert_eq!(kind("STATE 10\n"), "STATE");
        assert_eq!(kind("VALUES 2\n0 1\n"), "VALUES");
        assert_eq!(kind("ROWS 9 2\n"), "ROWS");
        assert_eq!(kind("ROWS 0 0\n"), "ROWS empty");
        assert_eq!(kind("REFUSE 9 3 1\n"), "REFUSE 9");
        assert_eq!(kind("REFUSE 10 1 5 3\n"), "REFUSE 10 side 1");
        assert_eq!(kind("REFUSE 11 0 4 3 0 3\n238\n"), "REFUSE 11 side 0");
    }

    #[test]
    fn names_of_calls() {
        assert_eq!([call_name(probe::START), call_name(probe::CHECK), call_name(0)], ["start", "check", "no call"]);
        assert_eq!([call_number("run"), call_number("no call")], [Some(probe::RUN), None]);
    }

    #[test]
    fn calls_of_inputs() {
        assert_eq!(call_of(&[2, 0, 0, 0, 9]), "step");
        assert_eq!(call_of(&[2]), "step");
        assert_eq!([call_of(&[]), call_of(&[7]), call_of(&[1, 1])], ["no call"; 3]);
    }

    #[test]
    fn endings_of_outputs() {
        assert_eq!(ending_of("REFUSE 1 0\n"), "not run");
        assert_eq!(ending_of("PASS 12 24 1\n"), "no events");
        assert_eq!(ending_of("PASS 12 24 1\n0 0 1 1\n"), "all done");
        assert_eq!(ending_of("PASS 12 24 1\n0 0 1 1\nREFUSE 16 1\n"), "not enabled");
        assert_eq!(ending_of("PASS 12 24 1\nREFUSE 17 4097\n"), "too many events");
    }
}
