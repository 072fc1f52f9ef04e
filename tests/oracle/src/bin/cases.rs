//! Test cases, one a line: `cases SEED COUNT`.

use oracle::cases::nth_case;
use std::io::{self, BufWriter, Write};
use std::process::ExitCode;

fn main() -> ExitCode {
    let arguments: Vec<u64> = std::env::args().skip(1).filter_map(|argument| argument.parse().ok()).collect();
    let [seed, count] = arguments[..] else {
        eprintln!("usage: cases SEED COUNT");
        return ExitCode::FAILURE;
    };
    match write_cases(seed, count) {
        Ok(()) => ExitCode::SUCCESS,
        Err(_) => ExitCode::FAILURE,
    }
}

fn write_cases(seed: u64, count: u64) -> io::Result<()> {
    let mut output = BufWriter::new(io::stdout().lock());
    for index in 0..count {
        writeln!(output, "{}", nth_case(seed, index))?;
    }
    output.flush()
}
