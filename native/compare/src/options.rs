//! What the command line asks for.

use std::path::PathBuf;

pub const USAGE: &str = "\
usage: compare [--cases N] [--large N] [--seed N] [--services R] [--cabinets S]
       compare --program PATH [--cases N] [--seed N]

--cases     random roads and damaged sheets, whose every plan is tried (20,000); before them
            come the bound for all numbers around the limits, the spans and the cases that are
            written down for barred pairs, for ties, for framing, for joints, for bills and for
            tidy copies; among 1,000 or more there must be ties, plans and roads that framing
            decides, all that is told apart about joints, edits of every kind, within their rule
            and outside, calls on spans of every kind, alone and on two spans by turns, every
            kind of answer to a tidy copy, and sheets of every form, and among 2,000 or more
            bills of every kind but those above 31 bits; then come as many roads of up to 6
            services and 12 cabinets that are planned as they are and rehung, among 1,000 or
            more of which there must be links turned over, the same root with other numbers,
            other counts, other plans, and roads that barred pairs, joints and framing decide
--large     roads of up to 10 services and 200 cabinets (40); of 40 or more some must tie; then
            come as many that are rehung
--seed      the same cases for the same seed (1)
--services  the most services of common roads (4)
--cabinets  the most cabinets of common roads (6)
--program   compare what the program at PATH prints (500 cases)";

pub struct Options {
    pub cases: usize,
    pub large: usize,
    pub seed: u64,
    pub services: usize,
    pub cabinets: usize,
    pub program: Option<PathBuf>,
}

impl Default for Options {
    fn default() -> Options {
        Options {
            cases: 20_000,
            large: 40,
            seed: 1,
            services: 4,
            cabinets: 6,
            program: None,
        }
    }
}

impl Options {
    /// The options of these arguments; the error tells how to call.
    pub fn parse(arguments: impl Iterator<Item = String>) -> Result<Options, String> {
        let mut options = Options::default();
        let mut cases = None;
        let mut arguments = arguments;
        while let Some(argument) = arguments.next() {
            let value = arguments.next().ok_or(USAGE)?;
            if argument == "--program" {
                options.program = Some(PathBuf::from(value));
                continue;
            }
            let number: u64 = value.parse().map_err(|_| USAGE)?;
            match argument.as_str() {
                "--cases" => cases = Some(number as usize),
                "--large" => options.large = number as usize,
                "--seed" => options.seed = number,
                "--services" if number <= 10 => options.services = number as usize,
                "--cabinets" if (1..=200).contains(&number) => {
                    options.cabinets = number as usize;
                }
                _ => return Err(USAGE.to_string()),
            }
        }
        let usual = if options.program.is_some() {
            500
        } else {
            options.cases
        };
        options.cases = cases.unwrap_or(usual);
        Ok(options)
    }
}
