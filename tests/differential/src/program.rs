//! The program that is tested.

use std::io::{self, ErrorKind, Write};
use std::path::Path;
use std::process::{Command, Stdio};

/// What it prints for an input, or in words why it did not end well.
pub fn printed(program: &Path, input: &[u8]) -> Result<Vec<u8>, String> {
    let output = run(program, input).map_err(|error| error.to_string())?;
    match output.status.code() {
        // By 2, or a signal, a program says that there is no answer; by 1 and 3 the checker tells of a refusal.
        Some(0 | 1 | 3) => Ok(output.stdout),
        _ => Err(output.status.to_string()),
    }
}

fn run(program: &Path, input: &[u8]) -> io::Result<std::process::Output> {
    let mut child = Command::new(program).stdin(Stdio::piped()).stdout(Stdio::piped()).spawn()?;
    let written = child.stdin.take().map_or(Ok(()), |mut stdin| stdin.write_all(input));
    match written {
        // A program may stop reading before the end of its input.
        Err(error) if error.kind() != ErrorKind::BrokenPipe => Err(error),
        _ => child.wait_with_output(),
    }
}
