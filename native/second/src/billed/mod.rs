//! Bills of plans, written down one by one with the lines and figures that the paper gives.

mod lines;
mod loads;
mod paths;
mod refused;
mod tax;

use crate::bill::{Bill, Tariff};
use crate::build::tight;
use crate::limits::{AMOUNT, NO_PARENT, SERVICES};
use crate::random::case::Origin;
use crate::random::{Case, Lent};
use crate::sheet::{Cabinet, Sheet, Stream};

/// A plan with a tariff, and its bill.
pub struct Billed {
    pub name: &'static str,
    pub sheet: Vec<u8>,
    pub plan: Vec<u16>,
    pub tariff: Tariff,
    /// How many places are lent for the lines.
    pub places: usize,
    /// The lines and the figures, or the refusal.
    pub answer: Result<(Vec<u64>, Bill), u64>,
}

impl Billed {
    /// A bill of these lines with this net, tax and total, for block price, slot price and tax
    /// rate. Just enough places are lent.
    fn made(
        name: &'static str,
        sheet: &Sheet,
        plan: &[u16],
        tariff: [u64; 3],
        lines: &[u64],
        [net, tax, total]: [u64; 3],
    ) -> Billed {
        Billed {
            name,
            sheet: tight(sheet),
            plan: plan.to_vec(),
            tariff: Tariff::of(tariff),
            places: lines.len(),
            answer: Ok((lines.to_vec(), Bill { net, tax, total })),
        }
    }

    /// The same with so many places lent.
    fn lent(self, places: usize) -> Billed {
        Billed { places, ..self }
    }

    /// The plan with its tariff, to be compared. For large roads too little is lent to the planner.
    pub fn case(&self) -> Case {
        Case {
            origin: Origin::Directed(self.name),
            sheet: self.sheet.clone(),
            plans: vec![self.plan.clone()],
            tariffs: vec![self.tariff],
            lent: vec![Lent {
                output: SERVICES,
                costs: 12,
                choices: 12,
            }],
        }
    }
}

/// Cabinets with these parents from 1, all with room for all that a sheet can name, and links that
/// carry as much each way.
fn roomy(parents: &[u16]) -> Vec<Cabinet> {
    let root = Cabinet::from_words([NO_PARENT, AMOUNT, 2, 0, 0, 0, 0]);
    let cabinet = |&parent: &u16| Cabinet::from_words([parent, AMOUNT, 4, AMOUNT, 3, AMOUNT, 5]);
    let others = parents.iter().map(cabinet);
    [root].into_iter().chain(others).collect()
}

/// Services of these demands on such cabinets, with these streams.
fn road(services: &[u16], parents: &[u16], words: &[[u16; 3]]) -> Sheet {
    Sheet {
        services: services.to_vec(),
        cabinets: roomy(parents),
        streams: words.iter().copied().map(Stream::from_words).collect(),
        barred: vec![],
    }
}

/// All of them.
pub fn all() -> Vec<Billed> {
    let mut all = loads::all();
    all.extend(paths::all());
    all.extend(lines::all());
    all.extend(tax::all());
    all.extend(refused::all());
    all
}
