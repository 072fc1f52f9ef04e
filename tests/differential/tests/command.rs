//! The command itself: a difference must not go unseen.

use std::process::{Command, Output};

fn differential(arguments: &[&str]) -> Output {
    Command::new(env!("CARGO_BIN_EXE_differential")).args(arguments).output().unwrap()
}

fn printed(output: &Output) -> String {
    String::from_utf8_lossy(&output.stdout).into_owned()
}

#[test]
fn a_program_that_prints_nothing_differs() {
    let output = differential(&["/bin/true", "1", "20"]);
    assert_eq!(output.status.code(), Some(1));
    let printed = printed(&output);
    assert!(printed.starts_with("first difference, at input 0:\n"), "{printed}");
    assert!(printed.contains("20 inputs, 20 differences"), "{printed}");
}

#[test]
fn one_call_alone() {
    let output = differential(&["/bin/true", "1", "20", "check"]);
    assert_eq!(output.status.code(), Some(1));
    let printed = printed(&output);
    assert!(printed.contains("check                 20 (PASS: "), "{printed}");
}

#[test]
fn the_program_alone() {
    let output = differential(&["/bin/true", "1", "20", "program"]);
    assert_eq!(output.status.code(), Some(1));
    let printed = printed(&output);
    assert!(printed.contains("20 inputs, 20 differences"), "{printed}");
}

#[test]
fn a_program_that_fails_or_is_not_there_differs() {
    for program in ["/bin/false", "/no/such/program"] {
        assert_eq!(differential(&[program, "1", "3"]).status.code(), Some(1));
    }
}

#[test]
fn arguments_that_make_no_comparison() {
    let wrong = [&[][..], &["/bin/true", "1"], &["/bin/true", "x", "1"], &["/bin/true", "1", "1", "chuck"]];
    for arguments in wrong {
        assert_eq!(differential(arguments).status.code(), Some(2));
    }
}
