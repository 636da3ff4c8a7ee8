//! Demands, capacities and prices in several manners.

use super::Random;
use crate::check::{Loads, loads};
use crate::framing::taken;
use crate::limits::AMOUNT;
use crate::path::path;
use crate::sheet::{Cabinet, Sheet};

/// How large the amounts of a road are.
#[derive(Clone, Copy, Debug, PartialEq, Eq)]
pub enum Scale {
    /// 0 to 4.
    Small,
    /// 0 or 1, for many ties.
    Ties,
    /// Mostly 0.
    Zeros,
    /// Up to the largest amount.
    Wide,
    /// At the largest amount or just below.
    Big,
}

impl Scale {
    pub fn amount(self, random: &mut Random) -> u16 {
        let most = usize::from(AMOUNT);
        let amount = match self {
            Scale::Small => random.below(5),
            Scale::Ties => random.below(2),
            Scale::Zeros => random.below(12).saturating_sub(8),
            Scale::Wide => random.between(0, most),
            Scale::Big => most - random.below(3) * random.below(3000),
        };
        amount as u16
    }

    /// A cabinet's capacity: often enough for several demands of this scale, sometimes 0.
    fn capacity(self, random: &mut Random) -> u16 {
        self.several(random, u64::from)
    }

    /// The same of a link, for streams with their framing.
    fn link_capacity(self, random: &mut Random) -> u16 {
        self.several(random, taken)
    }

    /// What several demands of this scale take, if each takes so much; no more than an amount.
    fn several(self, random: &mut Random, takes: impl Fn(u16) -> u64) -> u16 {
        let several = random.between(0, 4);
        let sum: u64 = (0..several).map(|_| takes(self.amount(random))).sum();
        cut(sum)
    }
}

/// The largest amount that is no more than this.
fn cut(load: u64) -> u16 {
    load.min(u64::from(AMOUNT)) as u16
}

/// Gives every cabinet and link random prices.
pub fn prices(random: &mut Random, scale: Scale, cabinets: &mut [Cabinet]) {
    for (c, cabinet) in cabinets.iter_mut().enumerate() {
        cabinet.price = scale.amount(random);
        if c != 0 {
            cabinet.up_price = scale.amount(random);
            cabinet.down_price = scale.amount(random);
        }
    }
}

/// Gives every cabinet and link random capacities.
pub fn capacities(random: &mut Random, scale: Scale, cabinets: &mut [Cabinet]) {
    for (c, cabinet) in cabinets.iter_mut().enumerate() {
        cabinet.capacity = scale.capacity(random);
        if c != 0 {
            cabinet.up_capacity = scale.link_capacity(random);
            cabinet.down_capacity = scale.link_capacity(random);
        }
    }
}

/// Gives every cabinet and link all the capacity that a sheet can name.
pub fn ample(cabinets: &mut [Cabinet]) {
    for (c, cabinet) in cabinets.iter_mut().enumerate() {
        cabinet.capacity = AMOUNT;
        if c != 0 {
            cabinet.up_capacity = AMOUNT;
            cabinet.down_capacity = AMOUNT;
        }
    }
}

/// Cuts every capacity to what a random plan needs, framing counted, so that it just suffices for
/// that plan. A cabinet whose services there have no demand gets 1, since a joint holds none.
pub fn just_enough(random: &mut Random, sheet: &mut Sheet) {
    let s = sheet.cabinets.len();
    let plan: Vec<u16> = (0..sheet.services.len())
        .map(|_| random.below(s) as u16)
        .collect();
    let Loads {
        cabinets,
        services,
        up,
        down,
    } = loads(sheet, &plan, |a, b| path(sheet, a, b));
    for (c, cabinet) in sheet.cabinets.iter_mut().enumerate() {
        cabinet.capacity = cut(cabinets[c]).max(u16::from(services[c] > 0));
        cabinet.up_capacity = cut(up[c].load);
        cabinet.down_capacity = cut(down[c].load);
    }
}

/// Takes one from a capacity that is not 0, if there is one.
pub fn one_less(random: &mut Random, sheet: &mut Sheet) {
    let fields = sheet
        .cabinets
        .iter_mut()
        .flat_map(|c| [&mut c.capacity, &mut c.up_capacity, &mut c.down_capacity]);
    let mut full: Vec<&mut u16> = fields.filter(|f| **f != 0).collect();
    if !full.is_empty() {
        let i = random.below(full.len());
        *full[i] -= 1;
    }
}
