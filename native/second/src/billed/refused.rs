//! Tariffs and places at their limits and past them, and the refusals that come before 22.

use super::Billed;
use crate::bill::Tariff;
use crate::build::tight;
use crate::measured::{m, m_barred, m_records};

pub fn all() -> Vec<Billed> {
    let mut all = at_the_limits();
    all.extend(past_the_limits());
    all.extend(places());
    all.extend(check_first());
    all.extend(reader_first());
    all
}

/// A refusal for a plan of this sheet with this tariff and so many places.
fn refused(
    name: &'static str,
    sheet: Vec<u8>,
    plan: &[u16],
    tariff: [u64; 3],
    places: usize,
    refusal: u64,
) -> Billed {
    Billed {
        name,
        sheet,
        plan: plan.to_vec(),
        tariff: Tariff::of(tariff),
        places,
        answer: Err(refusal),
    }
}

/// M with service 0 on the root and service 1 on cabinet 1: one block down to 1, and two demands of
/// 2.
fn made(name: &'static str, tariff: [u64; 3], lines: [u64; 6], figures: [u64; 3]) -> Billed {
    Billed::made(name, &m_records(), &[0, 1], tariff, &lines, figures)
}

/// The largest prices and the largest rate, all of them and each alone.
fn at_the_limits() -> Vec<Billed> {
    let links = [0, 10_000, 0, 0, 0, 0];
    let services = [0, 0, 0, 0, 20_000, 20_000];
    let both = [0, 10_000, 0, 0, 20_000, 20_000];
    vec![
        made(
            "all at their limits",
            [10_000, 10_000, 1_000],
            both,
            [50_000, 50_000, 100_000],
        ),
        made("blocks alone", [10_000, 0, 0], links, [10_000, 0, 10_000]),
        made("slots alone", [0, 10_000, 0], services, [40_000, 0, 40_000]),
        made("tax alone", [0, 0, 1_000], [0; 6], [0; 3]),
        made("free of charge", [0, 0, 0], [0; 6], [0; 3]),
    ]
}

/// A price or the rate just past its limit, or far past it.
fn past_the_limits() -> Vec<Billed> {
    const MOST: u64 = u64::MAX;
    let past = |name, tariff| refused(name, m(), &[0, 1], tariff, 6, 22);
    vec![
        past("block price 10,001", [10_001, 0, 0]),
        past("slot price 10,001", [0, 10_001, 0]),
        past("tax rate 1,001", [0, 0, 1_001]),
        past("tax rate 10,000", [10_000, 10_000, 10_000]),
        past("block price 65,536", [65_536, 1, 1]),
        past("slot price 65,536", [1, 65_536, 1]),
        past("tax rate 65,536", [1, 1, 65_536]),
        past("block price 2^32", [1 << 32, 1, 1]),
        past("slot price 2^32", [1, 1 << 32, 1]),
        past("tax rate 2^32", [1, 1, 1 << 32]),
        past("the largest block price", [MOST, 0, 0]),
        past("the largest slot price", [0, MOST, 0]),
        past("the largest tax rate", [0, 0, MOST]),
        past("all past their limits", [10_001, 10_001, 1_001]),
        past("all the largest", [MOST; 3]),
    ]
}

/// M has six lines.
fn places() -> Vec<Billed> {
    let tariff = [10, 5, 100];
    let short = |name, places| refused(name, m(), &[0, 1], tariff, places, 22);
    let enough = |name, places| {
        let bill = made(name, tariff, [0, 10, 0, 0, 10, 10], [30, 3, 33]);
        bill.lent(places)
    };
    vec![
        short("no place", 0),
        short("one place short", 5),
        enough("just enough places", 6),
        enough("a place more", 7),
        enough("places for any bill", 408),
        refused("one short, tariff too", m(), &[0, 1], [1, 1, 1_001], 5, 22),
    ]
}

/// Every refusal of the check comes before 22, whether that is for the tariff, for the places or
/// for both.
fn check_first() -> Vec<Billed> {
    let before = |name, pairs: &[[u16; 2]], plan: &[u16], refusal| {
        let sheet = tight(&m_barred(pairs));
        let (right, wrong) = ([1, 1, 1], [u64::MAX; 3]);
        [(right, 5), (wrong, 6), (wrong, 0)]
            .map(|(tariff, places)| refused(name, sheet.clone(), plan, tariff, places, refusal))
    };
    let all = [
        before("13 before 22, short", &[], &[0], 13),
        before("13 before 22, long", &[], &[0, 1, 2], 13),
        before("14 before 22", &[], &[0, 3], 14),
        before("20 before 22", &[[0, 0]], &[0, 1], 20),
        before("15 before 22", &[], &[1, 1], 15),
        before("16 before 22", &[], &[2, 0], 16),
    ];
    all.into_iter().flatten().collect()
}

/// And so does every refusal of the reader.
fn reader_first() -> Vec<Billed> {
    let before = |name, at: usize, byte: u8, refusal| {
        let mut sheet = tight(&m_barred(&[[0, 2]]));
        sheet[at] = byte;
        [([1, 1, 1], 0), ([10_001, 1, 1], 6), ([u64::MAX; 3], 0)]
            .map(|(tariff, places)| refused(name, sheet.clone(), &[0, 1], tariff, places, refusal))
    };
    let all = [
        before("2 before 22", 0, 11, 2),
        before("3 before 22", 12, 73, 3),
        before("4 before 22", 6, 15, 4),
        before("5 before 22", 6, 19, 5),
        before("6 before 22", 17, 255, 6),
        before("7 before 22", 20, 0, 7),
        before("8 before 22", 62, 1, 8),
        before("9 before 22", 26, 1, 9),
        before("18 before 22", 14, 15, 18),
        before("19 before 22", 70, 2, 19),
    ];
    let short = refused("1 before 22", m()[..15].to_vec(), &[0, 1], [1_001; 3], 0, 1);
    all.into_iter().flatten().chain([short]).collect()
}
