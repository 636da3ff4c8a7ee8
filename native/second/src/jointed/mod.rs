//! Roads on which joints decide, written down one by one with the answers that the papers give.

mod order;
mod passed;
mod places;
mod sets;

use crate::limits::{AMOUNT, NO_PARENT};
use crate::sheet::{Cabinet, Pair, Sheet};
use crate::written::{Written, streams};

/// A road of these services, cabinets and streams; the root comes first.
fn road(services: &[u16], cabinets: &[[u16; 7]], words: &[[u16; 3]]) -> Sheet {
    let cabinets = cabinets.iter().copied().map(Cabinet::from_words);
    Sheet {
        services: services.to_vec(),
        cabinets: cabinets.collect(),
        streams: streams(words),
        barred: vec![],
    }
}

/// Services on cabinets of price 1 with these parents and capacities, under a root of this
/// capacity. Links are free and carry all that a sheet can name.
fn free(services: &[u16], root: u16, others: &[[u16; 2]]) -> Sheet {
    let top = [NO_PARENT, root, 1, 0, 0, 0, 0];
    let below = others
        .iter()
        .map(|&[parent, capacity]| [parent, capacity, 1, AMOUNT, 0, AMOUNT, 0]);
    let cabinets: Vec<[u16; 7]> = [top].into_iter().chain(below).collect();
    road(services, &cabinets, &[])
}

/// The same with a root and two cabinets under it.
fn star(services: &[u16], [root, one, two]: [u16; 3]) -> Sheet {
    free(services, root, &[[0, one], [0, two]])
}

/// The same with four cabinets in a row.
fn chain(services: &[u16], [root, one, two, three]: [u16; 4]) -> Sheet {
    free(services, root, &[[0, one], [1, two], [2, three]])
}

/// The sheet with these pairs barred.
fn barring(mut sheet: Sheet, pairs: &[[u16; 2]]) -> Sheet {
    sheet.barred = pairs.iter().copied().map(Pair::from_words).collect();
    sheet
}

/// All of them.
pub fn all() -> Vec<Written> {
    let mut all = places::all();
    all.extend(passed::all());
    all.extend(sets::all());
    all.extend(order::all());
    all
}
