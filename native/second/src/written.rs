//! A road that is written down with the answers that the papers give.

use crate::build::tight;
use crate::random::case::Origin;
use crate::random::{Case, Lent};
use crate::sheet::{Sheet, Stream};

/// A road and what planner and check answer for it.
pub struct Written {
    pub name: &'static str,
    pub sheet: Sheet,
    /// The planner's refusal, cost and count.
    pub answer: [u64; 3],
    /// The plan that the planner writes; of no place in a refusal.
    pub plan: Vec<u16>,
    /// Plans with their cost or refusal.
    pub checks: Vec<(Vec<u16>, Result<u64, u64>)>,
}

impl Written {
    /// A road with a cheapest plan of this cost, and this count.
    pub fn planned(
        name: &'static str,
        sheet: Sheet,
        [cost, count]: [u64; 2],
        plan: &[u16],
    ) -> Written {
        Written {
            name,
            sheet,
            answer: [0, cost, count],
            plan: plan.to_vec(),
            checks: vec![(plan.to_vec(), Ok(cost))],
        }
    }

    /// A road without a valid plan, and this count.
    pub fn without_plan(name: &'static str, sheet: Sheet, count: u64) -> Written {
        Written {
            name,
            sheet,
            answer: [12, 0, count],
            plan: vec![],
            checks: vec![],
        }
    }

    /// The same with these plans checked too.
    pub fn checked<const R: usize>(mut self, checks: &[([u16; R], Result<u64, u64>)]) -> Written {
        let checks = checks.iter().map(|(plan, answer)| (plan.to_vec(), *answer));
        self.checks.extend(checks);
        self
    }

    /// The road with its calls, to be compared.
    pub fn case(&self) -> Case {
        let entries = self.sheet.entries();
        Case {
            origin: Origin::Directed(self.name),
            sheet: tight(&self.sheet),
            plans: self.checks.iter().map(|(plan, _)| plan.clone()).collect(),
            tariffs: vec![],
            lent: vec![Lent {
                output: self.sheet.services.len(),
                costs: entries,
                choices: entries,
            }],
        }
    }
}

/// Streams of these ends and demands.
pub fn streams(words: &[[u16; 3]]) -> Vec<Stream> {
    words.iter().copied().map(Stream::from_words).collect()
}
