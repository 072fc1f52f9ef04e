//! The command line: exit status 0 exactly if there is no difference.

use differential::compare::{compare, Oracle, PROBE, PROGRAM};
use differential::counts::call_number;
use differential::inputs::{nth_input, nth_input_of};
use differential::program_inputs::nth_program_input;
use std::path::Path;
use std::process::ExitCode;

const USAGE: &str = "usage: differential PROBE SEED COUNT [start|step|run|values|rows|check]
       differential PROGRAM SEED COUNT program";

fn main() -> ExitCode {
    let arguments: Vec<String> = std::env::args().skip(1).collect();
    let arguments: Vec<&str> = arguments.iter().map(String::as_str).collect();
    let Some((program, oracle, inputs)) = read(&arguments) else {
        eprintln!("{USAGE}");
        return ExitCode::from(2);
    };
    let comparison = compare(Path::new(program), oracle, inputs);
    print!("{comparison}");
    if comparison.differences == 0 {
        return ExitCode::SUCCESS;
    }
    ExitCode::FAILURE
}

type Inputs = Box<dyn Iterator<Item = Vec<u8>>>;

/// The program, what it is compared with, and the inputs: of all calls of the probe, of one alone, or of the program.
fn read<'a>(arguments: &[&'a str]) -> Option<(&'a str, Oracle, Inputs)> {
    let [program, seed, count, series @ ..] = arguments else { return None };
    let (seed, count): (u64, u64) = (seed.parse().ok()?, count.parse().ok()?);
    let (oracle, inputs): (Oracle, Inputs) = match series {
        [] => (PROBE, Box::new((0..count).map(move |index| nth_input(seed, index)))),
        ["program"] => (PROGRAM, Box::new((0..count).map(move |index| nth_program_input(seed, index)))),
        [name] => {
            let number = call_number(name)?;
            (PROBE, Box::new((0..count).map(move |index| nth_input_of(number, seed, index))))
        }
        _ => return None,
    };
    Some((program, oracle, inputs))
}
