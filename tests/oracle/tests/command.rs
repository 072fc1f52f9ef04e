//! The command lines.

mod common;

use common::SET_A;
use oracle::bytes::to_bytes;
use oracle::write::input_event;
use std::io::Write;
use std::path::{Path, PathBuf};
use std::process::{Command, Output, Stdio};

const ORACLE: &str = env!("CARGO_BIN_EXE_oracle");
const CASES: &str = env!("CARGO_BIN_EXE_cases");

fn run(program: &str, arguments: &[&str], input: &[u8]) -> Output {
    let mut command = Command::new(program);
    command.args(arguments).stdin(Stdio::piped()).stdout(Stdio::piped()).stderr(Stdio::piped());
    let mut child = command.spawn().unwrap();
    child.stdin.take().unwrap().write_all(input).unwrap();
    child.wait_with_output().unwrap()
}

fn printed(program: &str, arguments: &[&str], input: &[u8]) -> String {
    String::from_utf8(run(program, arguments, input).stdout).unwrap()
}

fn temporary(name: &str) -> PathBuf {
    Path::new(env!("CARGO_TARGET_TMPDIR")).join(name)
}

#[test]
fn program_and_probe_from_standard_input() {
    let events = [input_event(0, 1), input_event(1, 1), input_event(0, 0)];
    let input = to_bytes(&[&SET_A[..], &events].concat());
    assert_eq!(printed(ORACLE, &["program"], &input), "PASS 12 24 1\n0 0 1 1\n1 1 1 7\n2 0 0 10\n");
    let input = to_bytes(&[&[6, 29], &SET_A[..]].concat());
    assert_eq!(printed(ORACLE, &["probe"], &input), "PASS 12 24 1\n");
    assert_eq!(printed(ORACLE, &["check-fast"], &input), "PASS 12 24 1\n");
}

#[test]
fn host_calls_on_a_file() {
    let file = temporary("set_a");
    std::fs::write(&file, to_bytes(&SET_A)).unwrap();
    let file = file.to_str().unwrap();
    assert_eq!(printed(ORACLE, &["host-check", file], &[]), "0\n");
    let event = input_event(0, 0).to_string();
    assert_eq!(printed(ORACLE, &["host-step", file, "11", &event], &[]), "10\n");
    assert_eq!(printed(ORACLE, &["host-step", file, "12", &event], &[]), "2147483663\n");
}

#[test]
fn generated_files_and_cases() {
    let directory = temporary("inputs");
    let directory = directory.to_str().unwrap();
    assert!(run(ORACLE, &["generate", "3", "4", directory], &[]).status.success());
    for index in 0..4 {
        for call in ["probe", "program"] {
            let path = format!("{directory}/{index:06}.{call}");
            let input = std::fs::read(&path).unwrap();
            let expected = std::fs::read_to_string(format!("{path}.out")).unwrap();
            assert_eq!(printed(ORACLE, &[call], &input), expected);
        }
    }
    let cases = printed(CASES, &["3", "5"], &[]);
    let expected: Vec<String> = (0..5).map(|index| oracle::cases::nth_case(3, index)).collect();
    assert_eq!(cases.lines().collect::<Vec<_>>(), expected);
}

#[test]
fn arguments_that_make_no_call() {
    for arguments in [&[][..], &["check"], &["histogram", "x", "1"], &["host-check"], &["host-check", "/no/such/file"]]
    {
        let output = run(ORACLE, arguments, &[]);
        assert!(!output.status.success() && output.stdout.is_empty() && !output.stderr.is_empty());
    }
    assert!(!run(CASES, &["1"], &[]).status.success());
}
