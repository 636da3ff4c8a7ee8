//! Sheets with barred pairs, written down one by one with the answers that the papers give.

mod block;
mod pairs;

use crate::random::case::Origin;
use crate::random::{Case, Lent};
use crate::sheet::Pair;

/// A sheet and what the calls answer for it.
pub struct Directed {
    pub name: &'static str,
    pub sheet: Vec<u8>,
    /// The barred pairs as they stand, or the reader's refusal.
    pub read: Result<Vec<Pair>, u64>,
    /// Plans with their cost or refusal.
    pub checks: Vec<(Vec<u16>, Result<u64, u64>)>,
    /// Lent lengths with the planner's refusal, cost and count.
    pub plans: Vec<(Lent, [u64; 3])>,
}

/// What M needs to be planned.
const ENOUGH: Lent = lent(2, 12);

const fn lent(output: usize, entries: usize) -> Lent {
    Lent {
        output,
        costs: entries,
        choices: entries,
    }
}

impl Directed {
    /// A sheet that the reader refuses. So do check and planner, whatever the length of the plan
    /// and of what is lent.
    fn refused(name: &'static str, sheet: Vec<u8>, refusal: u64) -> Directed {
        let plans: [&[u16]; 4] = [&[0, 1], &[0], &[0, 1, 2], &[]];
        Directed {
            name,
            sheet,
            read: Err(refusal),
            checks: plans.map(|plan| (plan.to_vec(), Err(refusal))).to_vec(),
            plans: [ENOUGH, lent(1, 12), lent(2, 11), lent(0, 0)]
                .map(|lent| (lent, [refusal, 0, 0]))
                .to_vec(),
        }
    }

    /// An accepted form of M with these pairs, for which the planner answers with this refusal,
    /// cost and count.
    fn accepted(
        name: &'static str,
        sheet: Vec<u8>,
        pairs: &[[u16; 2]],
        answer: [u64; 3],
    ) -> Directed {
        Directed {
            name,
            sheet,
            read: Ok(pairs.iter().map(|&words| Pair::from_words(words)).collect()),
            checks: vec![(vec![0], Err(13)), (vec![0, 3], Err(14))],
            plans: vec![
                (ENOUGH, answer),
                (lent(1, 12), [10, 0, 0]),
                (lent(2, 11), [11, 0, 0]),
            ],
        }
    }

    /// The same with these plans checked too.
    fn checked(mut self, checks: &[([u16; 2], Result<u64, u64>)]) -> Directed {
        let checks = checks.iter().map(|(plan, answer)| (plan.to_vec(), *answer));
        self.checks.extend(checks);
        self
    }

    /// The sheet with its calls, to be compared.
    pub fn case(&self) -> Case {
        Case {
            origin: Origin::Directed(self.name),
            sheet: self.sheet.clone(),
            plans: self.checks.iter().map(|(plan, _)| plan.clone()).collect(),
            tariffs: vec![],
            lent: self.plans.iter().map(|(lent, _)| *lent).collect(),
        }
    }
}

/// All of them.
pub fn all() -> Vec<Directed> {
    let mut all = block::all();
    all.extend(pairs::all());
    all
}
