//! Tariffs within their limits and outside, and such as leave about half a cent of tax.

use super::Random;
use crate::bill::{Tariff, blocks, link_loads, thousandths};
use crate::check::check_sheet;
use crate::limits::{TARIFF_PRICE, TAX_RATE};
use crate::sheet::Sheet;

/// The limits of block price, slot price and tax rate.
pub const LIMITS: [u64; 3] = [TARIFF_PRICE, TARIFF_PRICE, TAX_RATE];

/// A number up to a limit: often at one end, next to it, small, or halfway.
fn up_to(random: &mut Random, limit: u64) -> u64 {
    let small = random.below(12) as u64;
    let any = random.between(0, limit as usize) as u64;
    let ends = [0, 1, limit / 2, limit - 1, limit];
    let end = random.pick(&ends);
    random.pick(&[small, any, any, end])
}

/// A number above a limit: next to it, or one that fewer bits or a sign would make a smaller one.
fn above(random: &mut Random, limit: u64) -> u64 {
    let low = random.between(0, limit as usize) as u64;
    let any = random.next().max(limit + 1);
    let next = limit + 1;
    let wide = random.pick(&[65_536, 1 << 32, 1 << 63]) | low;
    random.pick(&[next, next, 10 * limit, limit + 1 + low, wide, any, u64::MAX])
}

/// A tariff within its limits.
pub fn within(random: &mut Random) -> Tariff {
    Tariff::of(LIMITS.map(|limit| up_to(random, limit)))
}

/// A tariff of which one part, or several, are outside their limits.
pub fn outside(random: &mut Random) -> Tariff {
    let which = random.pick(&[1, 1, 2, 2, 4, 4, 3, 5, 6, 7]);
    let mut part = 0;
    Tariff::of(LIMITS.map(|limit| {
        part += 1;
        match which >> (part - 1) & 1 {
            1 => above(random, limit),
            _ => up_to(random, limit),
        }
    }))
}

/// A tariff within its limits by which the tax of a valid plan leaves 499, 500 or 501 thousandths
/// of a cent, if one is found.
pub fn sharp(random: &mut Random, sheet: &Sheet, plan: &[u16]) -> Option<Tariff> {
    check_sheet(sheet, plan).ok()?;
    let loads = link_loads(sheet, plan).concat();
    let started: u64 = loads.into_iter().map(blocks).sum();
    let demands: u64 = sheet.services.iter().map(|&demand| u64::from(demand)).sum();
    let left = 499 + random.below(3) as u64;
    (0..6).find_map(|_| {
        let tariff = within(random);
        let net = started * tariff.block_price + demands * tariff.slot_price;
        let first = random.between(0, TAX_RATE as usize) as u64;
        let mut rates = (first..=TAX_RATE).chain(0..first);
        let tax_rate = rates.find(|&rate| thousandths(net, rate) == left)?;
        Some(Tariff { tax_rate, ..tariff })
    })
}
