//! Lists the faults, with the case that shows each.
#![forbid(unsafe_code)]

use std::process::ExitCode;
use wrong::{Fault, first_difference};

fn main() -> ExitCode {
    let (all, mut unseen) = (Fault::all(), 0);
    for &fault in &all {
        match first_difference(Some(fault), 5_000, 1) {
            Some((case, line)) => {
                println!("{}\n    case {case}: {line}", fault.sentence());
            }
            None => {
                println!("{}\n    NOT SEEN", fault.sentence());
                unseen += 1;
            }
        }
    }
    println!("{} faults, {unseen} not seen", all.len());
    ExitCode::from(u8::from(unseen != 0))
}
