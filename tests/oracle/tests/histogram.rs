//! The generator reaches every refusal and passes often enough.

use oracle::histogram::histogram;

#[test]
fn every_answer_comes_often() {
    let histogram = histogram(1, 4000);
    for number in (1..=14).chain([21]) {
        assert!(histogram.checks[number] >= 20, "refusal {number}: {}", histogram.checks[number]);
    }
    for number in [10, 11, 12, 15, 16, 17, 21] {
        assert!(histogram.calls[number] >= 20, "refusal {number} of other calls: {}", histogram.calls[number]);
    }
    assert!(histogram.calls[0] >= 1000, "{} calls answered", histogram.calls[0]);
}

#[test]
fn a_quarter_of_the_reading_sets_pass() {
    let histogram = histogram(2, 4000);
    assert!(histogram.reading >= 1500, "{} of {} sets read", histogram.reading, histogram.sets);
    assert!(4 * histogram.passing() >= histogram.reading, "{} pass", histogram.passing());
    assert!(histogram.reading - histogram.passing() >= 400, "{} pass", histogram.passing());
}

#[test]
fn most_sets_are_small_and_some_are_large() {
    let histogram = histogram(3, 4000);
    assert!((20..500).contains(&histogram.median_steps()), "median {}", histogram.median_steps());
    assert!(histogram.steps.last().is_some_and(|&most| most > 20_000), "{:?}", histogram.steps.last());
}
