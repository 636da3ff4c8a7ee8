//! `program PLAN [TIDY] [--cases N] [--seed N]`: compares the planning program at PLAN with the
//! second planner, and the program at TIDY, which writes tidy copies, with the second writer.
#![forbid(unsafe_code)]

use std::path::PathBuf;
use std::process::ExitCode;

fn main() -> ExitCode {
    let mut arguments = std::env::args().skip(1);
    let (mut paths, mut cases, mut seed) = (vec![], 500, 1);
    while let Some(argument) = arguments.next() {
        let mut number = || arguments.next().and_then(|text| text.parse::<u64>().ok());
        match argument.as_str() {
            "--cases" => cases = number().unwrap_or(cases),
            "--seed" => seed = number().unwrap_or(seed),
            _ => paths.push(PathBuf::from(argument)),
        }
    }
    let (plan, tidy) = match &paths[..] {
        [plan] => (plan, None),
        [plan, tidy] => (plan, Some(tidy)),
        _ => {
            eprintln!("usage: program PLAN [TIDY] [--cases N] [--seed N]");
            return ExitCode::from(2);
        }
    };
    let planned = program::report(plan, cases as usize, seed);
    let copied = tidy.is_none_or(|tidy| program::report_tidy(tidy, cases as usize, seed));
    match planned && copied {
        true => ExitCode::SUCCESS,
        false => ExitCode::FAILURE,
    }
}
