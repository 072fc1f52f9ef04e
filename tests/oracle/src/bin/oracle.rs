//! The command line: answers of the oracle for one input, and generated inputs.

use oracle::histogram::histogram;
use oracle::inputs::write_inputs;
use std::io::{self, Read, Write};
use std::path::Path;
use std::process::ExitCode;

const USAGE: &str = "usage: oracle probe < INPUT
       oracle check-fast < INPUT
       oracle program < INPUT
       oracle host-check FILE
       oracle host-step FILE STATE EVENT
       oracle histogram SEED COUNT
       oracle generate SEED COUNT DIRECTORY";

fn main() -> ExitCode {
    let arguments: Vec<String> = std::env::args().skip(1).collect();
    let arguments: Vec<&str> = arguments.iter().map(String::as_str).collect();
    match answer(&arguments) {
        Some(Ok(output)) if io::stdout().write_all(&output).is_ok() => ExitCode::SUCCESS,
        Some(Err(error)) => {
            eprintln!("oracle: {error}");
            ExitCode::FAILURE
        }
        Some(Ok(_)) => ExitCode::FAILURE,
        None => {
            eprintln!("{USAGE}");
            ExitCode::FAILURE
        }
    }
}

/// The bytes to print, or nothing for arguments that make no call.
fn answer(arguments: &[&str]) -> Option<io::Result<Vec<u8>>> {
    Some(match arguments {
        ["probe"] => input().map(|bytes| oracle::probe(&bytes).into_bytes()),
        ["check-fast"] => input().map(|bytes| oracle::probe::probe_check_fast(&bytes).into_bytes()),
        ["program"] => input().map(|bytes| oracle::program(&bytes)),
        ["host-check", file] => std::fs::read(file).map(|bytes| number_line(oracle::host_check(&bytes))),
        ["host-step", file, state, event] => {
            let (state, event) = (state.parse().ok()?, event.parse().ok()?);
            std::fs::read(file).map(|bytes| number_line(oracle::host_step(&bytes, state, event)))
        }
        ["histogram", seed, count] => Ok(histogram(seed.parse().ok()?, count.parse().ok()?).to_string().into_bytes()),
        ["generate", seed, count, directory] => {
            let (seed, count) = (seed.parse().ok()?, count.parse().ok()?);
            write_inputs(seed, count, Path::new(directory)).map(|()| Vec::new())
        }
        _ => return None,
    })
}

fn input() -> io::Result<Vec<u8>> {
    let mut bytes = Vec::new();
    io::stdin().read_to_end(&mut bytes)?;
    Ok(bytes)
}

fn number_line(number: u32) -> Vec<u8> {
    format!("{number}\n").into_bytes()
}
