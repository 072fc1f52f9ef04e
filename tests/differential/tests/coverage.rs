//! The inputs reach every answer of the calls compared.

use differential::compare::{Oracle, PROBE, PROGRAM};
use differential::counts::Counts;
use differential::inputs::{nth_input, nth_input_of};
use differential::program_inputs::nth_program_input;
use oracle::{limits, probe};

const KINDS: &[&str] = &[
    "nothing",
    "PASS",
    "STATE",
    "VALUES",
    "ROWS",
    "ROWS empty",
    "REFUSE 1",
    "REFUSE 2",
    "REFUSE 3",
    "REFUSE 4",
    "REFUSE 5",
    "REFUSE 6",
    "REFUSE 7",
    "REFUSE 8",
    "REFUSE 9",
    "REFUSE 10 side 0",
    "REFUSE 10 side 1",
    "REFUSE 11 side 0",
    "REFUSE 11 side 1",
    "REFUSE 12",
    "REFUSE 13",
    "REFUSE 14",
    "REFUSE 15",
    "REFUSE 16",
    "REFUSE 17",
    "REFUSE 21",
];

fn counts(oracle: Oracle, inputs: impl Iterator<Item = Vec<u8>>) -> Counts {
    let mut counts = Counts::default();
    inputs.for_each(|input| counts.add(oracle, &input, &(oracle.output)(&input)));
    counts
}

#[test]
fn every_answer_comes_often() {
    let counts = counts(PROBE, (0..5000).map(|index| nth_input(1, index)));
    for kind in KINDS {
        assert!(counts.of(kind) >= 10, "{kind}\n{counts}");
    }
    // Of 20,000 inputs 300 at least.
    assert!(counts.of("REFUSE 21") >= 75, "{counts}");
}

/// Refusal 21 is one of reading, so every call that is refused gives it.
#[test]
fn every_call_meets_tables_out_of_number_order() {
    for number in [probe::START, probe::STEP, probe::RUN, probe::VALUES, probe::CHECK] {
        let counts = counts(PROBE, (0..1000).map(|index| nth_input_of(number, 1, index)));
        assert!(counts.of("REFUSE 21") >= 10, "{counts}");
    }
}

/// Of check alone, so that of 20,000 sets 100 at least have each refusal.
#[test]
fn every_answer_of_check_comes_often() {
    let counts = counts(PROBE, (0..4000).map(|index| nth_input_of(probe::CHECK, 1, index)));
    assert!(counts.of("PASS") >= 1000, "{counts}");
    for number in (1..=14).chain([21]) {
        let kind = if let 10 | 11 = number { format!("REFUSE {number} side 0") } else { format!("REFUSE {number}") };
        assert!(counts.of(&kind) >= 30, "{kind}\n{counts}");
    }
}

/// Of the program: sets that pass and sets of each refusal, runs of every ending, and every layout of the input.
#[test]
fn every_answer_of_the_program_comes_often() {
    let inputs: Vec<Vec<u8>> = (0..3000).map(|index| nth_program_input(1, index)).collect();
    let outputs: Vec<Vec<u8>> = inputs.iter().map(|input| oracle::program(input)).collect();
    let mut counts = Counts::default();
    inputs.iter().zip(&outputs).for_each(|(input, output)| counts.add(PROGRAM, input, output));
    assert!(counts.of("PASS") >= 1000, "{counts}");
    for number in (1..=14).chain([21]) {
        let kind = if let 10 | 11 = number { format!("REFUSE {number} side 0") } else { format!("REFUSE {number}") };
        assert!(counts.of(&kind) >= 10, "{kind}\n{counts}");
    }
    for ending in ["not run", "no events", "all done", "not enabled", "too many events"] {
        assert!(counts.of_group(ending) >= 30, "{ending}\n{counts}");
    }
    // Of a set that passes, a run is refused with 16 or 17 only.
    assert_eq!(counts.of_group("another refusal"), 0, "{counts}");

    let lengths = |test: &dyn Fn(usize) -> bool| inputs.iter().filter(|input| test(input.len())).count();
    let most = 4 * limits::PROGRAM_WORDS;
    assert!(lengths(&|length| length == 0) >= 5);
    assert!(lengths(&|length| length % 4 != 0) >= 200);
    assert!(lengths(&|length| length > most) >= 30);
    assert!(lengths(&|length| length > most && length % 4 != 0) >= 10);
    assert!(lengths(&|length| most - 4 < length && length < most) >= 5);

    let line_counts = outputs.iter().map(|output| output.iter().filter(|&&byte| byte == b'\n').count());
    let longest = limits::EVENTS + 1;
    assert!(line_counts.clone().filter(|&count| count > 1000).count() >= 50);
    assert!(line_counts.filter(|&count| count == longest).count() >= 5);
}
