//! Edits that break the rule: the tables are not those of a sheet that differs in one cabinet only.

use super::Random;
use super::amounts::Scale;
use super::bars::bars;
use super::edits::{other_record, some_cabinet};
use super::road::of_numbers;
use crate::keep::{NONE, Tables};
use crate::limits::{CABINETS, SERVICES};
use crate::plan::{plans, solve};
use crate::sheet::Sheet;

/// Fewer plans than this are tried to find a cabinet in use.
const FEW_PLANS: u64 = 3000;

/// How the rule is broken.
#[derive(Clone, Copy, Debug, PartialEq, Eq, PartialOrd, Ord)]
pub enum Breach {
    /// Another cabinet is changed too.
    TwoCabinets,
    /// Another cabinet is a joint too, if one is left.
    Joint,
    /// The cabinet, or another one, has another parent.
    Parent,
    /// The tables are those of another road with as many services and cabinets.
    OtherRoad,
    /// The tables are those of a road with other numbers of them.
    OtherSizes,
    /// Entries at random.
    Noise,
    /// All bits of all entries are set.
    Ones,
    /// All entries are 0.
    Zeros,
    /// The choices of one cabinet are at random.
    ChoiceRow,
    /// The costs of one cabinet are.
    CostRow,
}

impl Breach {
    pub const ALL: [Breach; 10] = [
        Breach::TwoCabinets,
        Breach::Joint,
        Breach::Parent,
        Breach::OtherRoad,
        Breach::OtherSizes,
        Breach::Noise,
        Breach::Ones,
        Breach::Zeros,
        Breach::ChoiceRow,
        Breach::CostRow,
    ];
}

/// An edit that breaks the rule: the sheet whose tables are kept, how they are damaged, and the
/// cabinet and the sheet of the edit.
pub struct Broken {
    pub kept: Sheet,
    pub cabinet: usize,
    pub edited: Sheet,
}

/// A road and another one, which the tables are not of.
pub fn broken(random: &mut Random, breach: Breach, sheet: &Sheet) -> Broken {
    let cabinet = some_cabinet(random, sheet);
    let mut kept = sheet.clone();
    let mut edited = sheet.clone();
    edited.cabinets[cabinet] = other_record(random, sheet, cabinet);
    match breach {
        Breach::TwoCabinets => {
            let s = sheet.cabinets.len();
            let other = (cabinet + 1 + random.below(s - 1)) % s;
            edited.cabinets[other] = other_record(random, sheet, other);
        }
        Breach::Joint => shut_one(random, &mut edited, cabinet),
        Breach::Parent => move_one(random, &mut edited, cabinet),
        Breach::OtherRoad => kept = other_road(random, sheet, false),
        Breach::OtherSizes => kept = other_road(random, sheet, true),
        _ => {}
    }
    Broken {
        kept,
        cabinet,
        edited,
    }
}

/// Makes a joint of another cabinet: one that the first plan uses, if few plans are to be tried.
fn shut_one(random: &mut Random, sheet: &mut Sheet, cabinet: usize) {
    let plan = match plans(sheet) < FEW_PLANS {
        true => solve(sheet).plan.unwrap_or_default(),
        false => vec![],
    };
    let used = plan.into_iter().map(usize::from).filter(|&c| c != cabinet);
    let used: Vec<usize> = used.collect();
    let s = sheet.cabinets.len();
    let other = match used.is_empty() {
        true => (cabinet + 1 + random.below(s - 1)) % s,
        false => random.pick(&used),
    };
    sheet.cabinets[other].capacity = 0;
}

/// Gives a cabinet another parent, if there is one that can have another: that of the edit, or any.
fn move_one(random: &mut Random, sheet: &mut Sheet, cabinet: usize) {
    let s = sheet.cabinets.len();
    if s < 3 {
        return;
    }
    let any = random.between(2, s - 1);
    let moved = random.pick(&[cabinet.max(2), any]);
    let parent = usize::from(sheet.cabinets[moved].parent);
    let other = (parent + random.between(1, moved - 1)) % moved;
    sheet.cabinets[moved].parent = other as u16;
}

/// Another road, of as many services and cabinets or of about as many.
fn other_road(random: &mut Random, sheet: &Sheet, resized: bool) -> Sheet {
    let (mut r, mut s) = (sheet.services.len(), sheet.cabinets.len());
    if resized {
        let low = r.saturating_sub(2);
        r = random.between(low, (low + 3).min(SERVICES));
        let low = s.saturating_sub(2).max(1);
        s = random.between(low, (low + 4).min(CABINETS));
    }
    let scale = random.pick(&[Scale::Small, Scale::Small, Scale::Ties]);
    let mut other = of_numbers(random, r, s, scale);
    other.barred = bars(random, &other);
    other
}

/// Damages tables in the manner of a breach; rows are of so many entries.
pub fn spoil(random: &mut Random, breach: Breach, row: usize, tables: &mut Tables) {
    let cabinet = random.below(tables.costs.len() / row);
    let places = cabinet * row..(cabinet + 1) * row;
    match breach {
        Breach::Noise => {
            let choices_too = !random.once_in(3);
            tables.costs.fill_with(|| figure(random));
            if choices_too {
                tables.choices.fill_with(|| random.next() as u16);
            }
        }
        Breach::Ones => {
            tables.costs.fill(u64::MAX);
            tables.choices.fill(u16::MAX);
        }
        Breach::Zeros => {
            tables.costs.fill(0);
            tables.choices.fill(0);
        }
        Breach::ChoiceRow => {
            let row = &mut tables.choices[places];
            row.fill_with(|| random.next() as u16);
        }
        Breach::CostRow => tables.costs[places].fill_with(|| figure(random)),
        _ => {}
    }
}

/// A figure of any size, often a small one or about the largest cost.
fn figure(random: &mut Random) -> u64 {
    let (small, any) = (random.below(20) as u64, random.next());
    let near = NONE - 3 + random.below(5) as u64;
    random.pick(&[0, small, small, small, small, small, near, any % NONE, any])
}
