//! Random surveys of a road from another root, with other numbers.

use super::Random;
use crate::limits::MAX_PAIRS;
use crate::rehung::{inverse, rehung};
use crate::sheet::{Cabinet, Pair, Sheet};

/// The road as another surveyor writes it, and the number that each of its cabinets has there. The
/// barred pairs stand in another order, some of them repeated.
pub fn survey(random: &mut Random, sheet: &Sheet) -> (Vec<u16>, Sheet) {
    let numbers = numbers(random, &sheet.cabinets);
    let mut other = rehung(sheet, &numbers);
    other.barred = mixed(random, &other.barred);
    (numbers, other)
}

/// New numbers for the cabinets of a road: once in four times the root stays the root, else any
/// cabinet is.
pub fn numbers(random: &mut Random, cabinets: &[Cabinet]) -> Vec<u16> {
    let root = match random.once_in(4) {
        true => 0,
        false => random.below(cabinets.len()),
    };
    numbers_from(random, cabinets, root)
}

/// New numbers for the cabinets of a road hung from this one: each comes after the one that it hangs
/// under, else at random.
pub fn numbers_from(random: &mut Random, cabinets: &[Cabinet], root: usize) -> Vec<u16> {
    let parent = |c: usize| usize::from(cabinets[c].parent);
    let neighbours = |c: usize| {
        let all = 0..cabinets.len();
        all.filter(move |&other| parent(other) == c || parent(c) == other)
    };
    let mut order = vec![root as u16];
    let mut open: Vec<usize> = neighbours(root).collect();
    while !open.is_empty() {
        let c = open.swap_remove(random.below(open.len()));
        open.extend(neighbours(c).filter(|&other| !order.contains(&(other as u16))));
        order.push(c as u16);
    }
    inverse(&order)
}

/// The pairs in another order, about every fourth twice, as far as a sheet has room.
fn mixed(random: &mut Random, pairs: &[Pair]) -> Vec<Pair> {
    let mut all = pairs.to_vec();
    all.extend(pairs.iter().filter(|_| random.once_in(4)));
    all.truncate(MAX_PAIRS);
    let order = random.order(all.len());
    order.into_iter().map(|k| all[k]).collect()
}
