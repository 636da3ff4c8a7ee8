//! Runs the built programs on many sheets and compares what they leave with the second planner and
//! the second writer of tidy copies.
#![forbid(unsafe_code)]

pub mod expect;
pub mod long;
pub mod run;
pub mod sheets;
pub mod tidy;

use run::Ran;
use second::hex::dump;
use std::collections::BTreeMap;
use std::path::Path;

/// How many sheets gave which answer: the refusal, or 0 for none.
pub type Counts = BTreeMap<u64, usize>;

/// Feeds all inputs to the program, in one piece, two or three by turns, and judges what it leaves.
/// The error is the first difference in full.
pub fn compare(
    program: &Path,
    inputs: &[(String, Vec<u8>)],
    judge: impl Fn(&[u8], &Ran) -> Result<u64, String>,
) -> Result<Counts, String> {
    let mut counts = Counts::new();
    for (number, (name, input)) in inputs.iter().enumerate() {
        let pieces = 1 + number % 3;
        let ran = run::run(program, input, pieces);
        let judged = ran.as_ref().map_err(String::clone);
        match judged.and_then(|ran| judge(input, ran)) {
            Ok(refusal) => *counts.entry(refusal).or_default() += 1,
            Err(what) => return Err(describe(name, &what, &ran.unwrap_or_default(), input)),
        }
    }
    Ok(counts)
}

/// The difference with what the run left and the input in full.
fn describe(name: &str, what: &str, ran: &Ran, input: &[u8]) -> String {
    let printed = String::from_utf8_lossy(&ran.output);
    let errors = String::from_utf8_lossy(&ran.errors);
    let (length, dump) = (input.len(), dump(input));
    format!(
        "{name}: {what}\nprinted:\n{printed}\nto standard error:\n{errors}\n\
         sheet of {length} bytes:\n{dump}"
    )
}

/// Compares the planning program and tells; true when there is no difference.
pub fn report(program: &Path, cases: usize, seed: u64) -> bool {
    let sheets = sheets::all(cases, seed);
    tell("planned", compare(program, &sheets, expect::judge))
}

/// Compares the program that writes tidy copies and tells; true when there is no difference.
pub fn report_tidy(program: &Path, cases: usize, seed: u64) -> bool {
    let mut inputs = sheets::all(cases, seed);
    inputs.extend(long::all(seed));
    tell("copied", compare(program, &inputs, tidy::judge))
}

/// Tells how many sheets gave which answer, or the difference.
fn tell(done: &str, compared: Result<Counts, String>) -> bool {
    match compared {
        Ok(counts) => {
            for (refusal, times) in &counts {
                match refusal {
                    0 => println!("{times:6} {done}"),
                    _ => println!("{times:6} refused {refusal}"),
                }
            }
            let total: usize = counts.values().sum();
            println!("{total} sheets, 0 differences");
            true
        }
        Err(difference) => {
            println!("difference: {difference}");
            false
        }
    }
}
