//! The test cases: their form, their size, and that every refusal comes often.

use oracle::cases::nth_case;
use oracle::check::typed_steps;
use oracle::generate::small;
use oracle::read;

fn numbers(field: &str) -> Vec<u32> {
    field.split_whitespace().map(|number| number.parse().unwrap()).collect()
}

fn fields_of(call: &str) -> usize {
    match call {
        "check" | "start" | "hostcheck" | "program" => 3,
        "rows" => 4,
        "step" | "hoststep" => 5,
        "values" => 6,
        "run" => 8,
        _ => 0,
    }
}

#[test]
fn every_refusal_comes_often() {
    let mut refused = [0; 22];
    let mut answered = 0;
    for index in 0..6000 {
        let case = nth_case(1, index);
        match case.split('\t').find_map(|field| field.strip_prefix("refuse ")) {
            Some(refusal) => refused[numbers(refusal)[0] as usize] += 1,
            None => answered += 1,
        }
    }
    for number in (1..=17).chain([21]) {
        assert!(refused[number] >= 20, "refusal {number}: {}", refused[number]);
    }
    assert!(answered >= 1500, "{answered} answered");
}

#[test]
fn form_and_size_of_a_case() {
    for index in 0..3000 {
        let case = nth_case(2, index);
        let fields: Vec<&str> = case.split('\t').collect();
        assert_eq!(fields.len(), fields_of(fields[0]), "{case}");
        if ["hostcheck", "hoststep", "program"].contains(&fields[0]) {
            assert!(numbers(fields[1]).iter().all(|&byte| byte < 256), "{case}");
            continue;
        }
        let words = numbers(fields[1]);
        // Only the limit of rows needs more words: two for each row.
        assert!(words.len() <= small::WORDS || words.len() == 130 || words.len() == 132, "{case}");
        if let Ok(set) = read(&words) {
            assert!(set.states <= small::STATES && typed_steps(&set) <= small::STEPS, "{case}");
        }
        if fields[0] == "run" {
            assert!(numbers(fields[3]).len() <= 8 && numbers(fields[5]).len() <= 12, "{case}");
            assert_eq!(numbers(fields[5]).len(), numbers(fields[7]).len());
        }
        if fields[0] == "values" {
            assert!(numbers(fields[3]).len() <= 40 && numbers(fields[3]).len() == numbers(fields[5]).len());
        }
    }
}
