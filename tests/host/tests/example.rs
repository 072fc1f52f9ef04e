//! The example host in C, built without a warning and run on Set A.

use host::example;
use oracle::bytes::to_bytes;
use std::path::{Path, PathBuf};
use std::process::Command;

fn temporary(name: &str) -> PathBuf {
    Path::new(env!("CARGO_TARGET_TMPDIR")).join(name)
}

/// The example, built under a name of its own, since tests run at the same time.
fn built(name: &str) -> PathBuf {
    let program = temporary(name);
    let status = Command::new("gcc")
        .args(["-std=c11", "-Wall", "-Wextra", "-Werror", "-O2", "-I"])
        .arg(example::path("include"))
        .arg(example::path("examples/host.c"))
        .arg(example::path("target/staticlib/libscrhost.a"))
        .arg("-o")
        .arg(&program)
        .status()
        .unwrap();
    assert!(status.success());
    program
}

/// What the example prints, and its exit status.
fn run(program: &Path, file: &Path, arguments: &[&str]) -> (String, Option<i32>) {
    let output = Command::new(program).arg(file).args(arguments).output().unwrap();
    (String::from_utf8(output.stdout).unwrap(), output.status.code())
}

#[test]
fn set_a() {
    let program = built("host_set_a");
    let (words, events) = example::set_a();
    let file = temporary("set_a.words");
    std::fs::write(&file, to_bytes(&words)).unwrap();

    let events: Vec<String> = events.iter().map(|event| format!("{event:08X}")).collect();
    let mut arguments = vec!["0"];
    arguments.extend(events.iter().map(String::as_str));
    let loaded = "set loaded: 29 words\n";
    let steps = "0 by B0000001 to 1\n1 by B0100001 to 7\n7 by B0000000 to 10\n";
    assert_eq!(run(&program, &file, &arguments), (format!("{loaded}{steps}"), Some(0)));

    let refused = "1 by B0000001 refused: 16\n";
    assert_eq!(run(&program, &file, &["1", "B0000001"]), (format!("{loaded}{refused}"), Some(1)));
    let refused = "12 by B0000000 refused: 15\n";
    assert_eq!(run(&program, &file, &["12", "B0000000", "B0000001"]), (format!("{loaded}{refused}"), Some(1)));
    assert_eq!(run(&program, &file, &["0"]), (loaded.to_string(), Some(0)));
}

#[test]
fn sets_that_are_not_loaded() {
    let program = built("host_refused");
    let (words, _) = example::set_a();
    let file = temporary("refused.words");
    let sets = [(vec![], 1), (to_bytes(&words)[..115].to_vec(), 1), (to_bytes(&words[..28]), 2), (vec![0; 16_388], 1)];
    for (bytes, number) in sets {
        std::fs::write(&file, bytes).unwrap();
        assert_eq!(run(&program, &file, &["0", "B0000001"]), (format!("set refused: {number}\n"), Some(1)));
    }
}

#[test]
fn arguments_that_are_no_use() {
    let program = built("host_arguments");
    let file = temporary("arguments.words");
    std::fs::write(&file, to_bytes(&example::set_a().0)).unwrap();
    for arguments in [&[][..], &["-1"], &["4294967296"], &["x"], &["0", "B000000g"], &["0", "1B0000000"]] {
        assert_eq!(run(&program, &file, arguments).1, Some(2), "{arguments:?}");
    }
    assert_eq!(run(&program, &temporary("no_such_file"), &["0"]), (String::new(), Some(2)));
}
