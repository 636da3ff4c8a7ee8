//! A case: a sheet, plans to check and to bill on it, and the lengths of what is lent to the
//! planner.

use super::Random;
use super::damage::{Damage, damage};
use super::joints::strayed;
use super::layout::layout;
use super::road::{Kind, road};
use crate::bill::Tariff;
use crate::build::build;
use crate::plan::{MOST_PLANS, plans, solve};
use crate::read::read;
use crate::sheet::Sheet;

/// The largest numbers of services and cabinets of common roads.
#[derive(Clone, Copy, Debug, PartialEq, Eq)]
pub struct Size {
    pub services: usize,
    pub cabinets: usize,
}

impl Size {
    /// Numbers of services and cabinets no larger than these, with few enough plans to try and
    /// placings to count.
    pub fn draw(self, random: &mut Random) -> (usize, usize) {
        let r = random.between(0, self.services);
        let mut s = random.between(1, self.cabinets);
        while s > 2 && (s as u64 + 1).saturating_pow(r as u32) * s as u64 > 120_000 {
            s -= 1;
        }
        (r, s)
    }
}

/// What a case is made from.
#[derive(Clone, Copy, Debug, PartialEq, Eq, PartialOrd, Ord)]
pub enum Origin {
    Road(Kind),
    Damaged(Damage),
    /// Written down with its answers, under this name.
    Directed(&'static str),
}

/// The lengths of the output, the cost table and the choice table.
#[derive(Clone, Copy, Debug, PartialEq, Eq)]
pub struct Lent {
    pub output: usize,
    pub costs: usize,
    pub choices: usize,
}

#[derive(Clone, Debug)]
pub struct Case {
    pub origin: Origin,
    pub sheet: Vec<u8>,
    pub plans: Vec<Vec<u16>>,
    /// Tariffs that the plans are billed by, beside those drawn for any case.
    pub tariffs: Vec<Tariff>,
    pub lent: Vec<Lent>,
}

/// The next case.
pub fn case(random: &mut Random, size: Size) -> Case {
    let (kind, sheet) = road(random, size);
    if random.once_in(3) {
        let (damage, bytes) = damage(random, &sheet);
        return with_calls(random, Origin::Damaged(damage), bytes);
    }
    let layout = layout(random, &sheet);
    with_calls(random, Origin::Road(kind), build(&sheet, &layout))
}

/// The case of this sheet, with plans and lent lengths that suit it.
pub fn with_calls(random: &mut Random, origin: Origin, sheet: Vec<u8>) -> Case {
    let records = read(&sheet).ok();
    let known = records.clone().unwrap_or_default();
    let mut plans: Vec<Vec<u16>> = (0..6).map(|_| some_plan(random, &known)).collect();
    if let Some(records) = &records {
        plans.extend(neighbours(random, records));
        plans.extend(forbidden(random, records));
        plans.extend(strayed(random, records));
    }
    let fitting = Lent {
        output: known.services.len(),
        costs: known.entries(),
        choices: known.entries(),
    };
    let lent = vec![roomy(random, fitting), short(random, fitting)];
    Case {
        origin,
        sheet,
        plans,
        tariffs: vec![],
        lent,
    }
}

/// A plan for the road, mostly of the right length and with cabinets of the road.
fn some_plan(random: &mut Random, sheet: &Sheet) -> Vec<u16> {
    let (r, s) = (sheet.services.len(), sheet.cabinets.len());
    let length = match random.below(10) {
        0 => r + 1,
        1 => r.saturating_sub(1),
        _ => r,
    };
    let mut plan: Vec<u16> = (0..length).map(|_| random.below(s) as u16).collect();
    if length > 0 && random.once_in(8) {
        let any = random.between(s, 65_535) as u16;
        plan[random.below(length)] = random.pick(&[s as u16, 65_535, any, 256]);
    }
    plan
}

/// The first of the cheapest plans of a small road, if it has one, and the same with one service
/// moved.
fn neighbours(random: &mut Random, sheet: &Sheet) -> Vec<Vec<u16>> {
    if plans(sheet) > MOST_PLANS.min(20_000) {
        return vec![];
    }
    let Some(best) = solve(sheet).plan else {
        return vec![];
    };
    let mut moved = best.clone();
    if !moved.is_empty() {
        let i = random.below(moved.len());
        moved[i] = random.below(sheet.cabinets.len()) as u16;
    }
    vec![best, moved]
}

/// A random plan with one service on a cabinet that it is barred from, if there is such a pair.
fn forbidden(random: &mut Random, sheet: &Sheet) -> Option<Vec<u16>> {
    let last = sheet.barred.len().checked_sub(1)?;
    let any = random.between(0, last);
    let pair = sheet.barred[random.pick(&[any, last])];
    let s = sheet.cabinets.len();
    let mut plan: Vec<u16> = (0..sheet.services.len())
        .map(|_| random.below(s) as u16)
        .collect();
    plan[usize::from(pair.service)] = pair.cabinet;
    Some(plan)
}

/// Lengths that suffice, exactly or with places to spare.
fn roomy(random: &mut Random, fitting: Lent) -> Lent {
    let mut more = || match random.below(3) {
        0 => random.between(1, 12),
        _ => 0,
    };
    Lent {
        output: fitting.output + more(),
        costs: fitting.costs + more(),
        choices: fitting.choices + more(),
    }
}

/// Lengths of which one or more are too small.
fn short(random: &mut Random, fitting: Lent) -> Lent {
    let mut lent = roomy(random, fitting);
    let which = random.between(1, 7);
    let mut less = |length: usize| random.pick(&[length.saturating_sub(1), length / 2, 0]);
    if which & 1 != 0 {
        lent.output = less(fitting.output);
    }
    if which & 2 != 0 {
        lent.costs = less(fitting.costs);
    }
    if which & 4 != 0 {
        lent.choices = less(fitting.choices);
    }
    lent
}
