//! What is told apart about the bills that are asked for.

use crate::bill::{Bill, Tariff, link_loads, number_of_lines, thousandths};
use crate::limits::{TARIFF_PRICE, TAX_RATE};
use crate::sheet::Sheet;

/// Why a bill is refused with 22.
#[derive(Clone, Copy, Debug, PartialEq, Eq, PartialOrd, Ord)]
pub enum Cause {
    BlockPrice,
    SlotPrice,
    TaxRate,
    /// Too few places for the lines.
    Lines,
}

/// A property of a bill, or of the refusal of one.
#[derive(Clone, Copy, Debug, PartialEq, Eq, PartialOrd, Ord)]
pub enum Feature {
    /// 22 for this cause and no other.
    Refused(Cause),
    /// This refusal of the check, though the tariff is outside its limits.
    BeforeTariff(u64),
    /// The same, though there are too few places for the lines.
    BeforeLines(u64),
    /// A refusal of the reader, though the tariff is outside its limits.
    ReaderFirst,
    /// A direction of a link with this load.
    Load(u64),
    /// This tax rate.
    Rate(u64),
    /// Net times rate with these thousandths of a cent behind the whole ones.
    Thousandths(u64),
    /// A road with links, or without.
    Links(bool),
    /// A road with services, or without.
    Services(bool),
    /// A total of 2^31 or more.
    Above31Bits,
}

impl Feature {
    /// All that must come up; of loads, rates and thousandths those that are told apart.
    pub fn all() -> Vec<Feature> {
        let causes = [
            Cause::BlockPrice,
            Cause::SlotPrice,
            Cause::TaxRate,
            Cause::Lines,
        ];
        let mut all = vec![Feature::ReaderFirst, Feature::Above31Bits];
        all.extend(causes.map(Feature::Refused));
        all.extend([13, 14, 20, 15, 16].map(Feature::BeforeTariff));
        all.extend([13, 14, 20, 15, 16].map(Feature::BeforeLines));
        all.extend(LOADS.map(Feature::Load));
        all.extend(RATES.map(Feature::Rate));
        all.extend(THOUSANDTHS.map(Feature::Thousandths));
        all.extend([true, false].map(Feature::Links));
        all.extend([true, false].map(Feature::Services));
        all
    }

    /// Random cases have it. Only the largest prices on a long road come to more than 31 bits.
    pub fn comes_by_chance(self) -> bool {
        self != Feature::Above31Bits
    }
}

/// Loads around a whole block, none, and the largest.
const LOADS: [u64; 5] = [0, 99, 100, 101, 10_000];
/// Rates at the limits, next to one, and halfway.
const RATES: [u64; 4] = [0, 1, 500, 1_000];
/// What is left just below half a cent, at it and just above.
const THOUSANDTHS: [u64; 3] = [499, 500, 501];

/// The properties of a bill that is asked for with this plan and tariff, and so many places, by the
/// answer that is right.
pub fn features(
    sheet: &Result<Sheet, u64>,
    plan: &[u16],
    tariff: Tariff,
    places: usize,
    answer: Result<Bill, u64>,
) -> Vec<Feature> {
    let outside = causes(tariff);
    let Ok(sheet) = sheet else {
        let first = (!outside.is_empty()).then_some(Feature::ReaderFirst);
        return first.into_iter().collect();
    };
    let lines = (places < number_of_lines(sheet)).then_some(Cause::Lines);
    match answer {
        Ok(bill) => of_bill(sheet, plan, tariff, bill),
        Err(22) => {
            let causes: Vec<Cause> = outside.into_iter().chain(lines).collect();
            let alone = (causes.len() == 1).then(|| Feature::Refused(causes[0]));
            alone.into_iter().collect()
        }
        Err(refusal) => {
            let tariff = (!outside.is_empty()).then_some(Feature::BeforeTariff(refusal));
            let lines = lines.map(|_| Feature::BeforeLines(refusal));
            tariff.into_iter().chain(lines).collect()
        }
    }
}

/// What of the tariff is outside its limits.
fn causes(tariff: Tariff) -> Vec<Cause> {
    let parts = [
        (Cause::BlockPrice, tariff.block_price, TARIFF_PRICE),
        (Cause::SlotPrice, tariff.slot_price, TARIFF_PRICE),
        (Cause::TaxRate, tariff.tax_rate, TAX_RATE),
    ];
    let above = parts.into_iter().filter(|&(_, part, limit)| part > limit);
    above.map(|(cause, _, _)| cause).collect()
}

/// The properties of a bill that is made.
fn of_bill(sheet: &Sheet, plan: &[u16], tariff: Tariff, bill: Bill) -> Vec<Feature> {
    let loads = link_loads(sheet, plan).concat();
    let mut features = vec![
        Feature::Links(!loads.is_empty()),
        Feature::Services(!sheet.services.is_empty()),
    ];
    let rest = thousandths(bill.net, tariff.tax_rate);
    let met = LOADS.into_iter().filter(|load| loads.contains(load));
    let rates = RATES.into_iter().filter(|&rate| rate == tariff.tax_rate);
    let rests = THOUSANDTHS.into_iter().filter(|&left| left == rest);
    let above = (bill.total >> 31 != 0).then_some(Feature::Above31Bits);
    features.extend(met.map(Feature::Load));
    features.extend(rates.map(Feature::Rate));
    features.extend(rests.map(Feature::Thousandths));
    features.extend(above);
    features
}
