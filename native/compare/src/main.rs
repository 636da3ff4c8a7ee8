//! Compares the proved planner with the second one, and with itself on roads rehung, and tells how
//! many cases of which kind gave which answers.
#![forbid(unsafe_code)]

use compare::{Options, RehungTally, rehung, run};
use differ::Tally;
use std::process::ExitCode;

fn main() -> ExitCode {
    let options = match Options::parse(std::env::args().skip(1)) {
        Ok(options) => options,
        Err(usage) => {
            eprintln!("{usage}");
            return ExitCode::from(2);
        }
    };
    if let Some(path) = &options.program {
        return match program::report(path, options.cases, options.seed) {
            true => ExitCode::SUCCESS,
            false => ExitCode::FAILURE,
        };
    }
    match all(&options) {
        Ok((tally, rehung)) => {
            print!("{tally}{rehung}");
            println!("{} cases, 0 differences", tally.cases());
            ExitCode::SUCCESS
        }
        Err(difference) => {
            println!("difference: {difference}");
            ExitCode::FAILURE
        }
    }
}

/// The cases, and then the roads rehung.
fn all(options: &Options) -> Result<(Tally, RehungTally), String> {
    let tally = run(options)?;
    let rehung = rehung::run(options.cases, options.large, options.seed)?;
    Ok((tally, rehung))
}
