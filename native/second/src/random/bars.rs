//! Barred pairs in several manners.

use super::Random;
use crate::limits::MAX_PAIRS;
use crate::sheet::{Pair, Sheet};

/// How the barred pairs of a road are drawn.
#[derive(Clone, Copy, Debug, PartialEq, Eq)]
enum Manner {
    /// No pair.
    None,
    /// One to three pairs.
    Few,
    /// About half of all pairs.
    Many,
    /// Every pair but those of some plan.
    OnePlan,
    /// Few pairs, each several times.
    Repeats,
    /// A service barred from every cabinet, or from all but one.
    Service,
    /// A cabinet barred to every service.
    Cabinet,
    /// As many as a sheet can have, or one less.
    Most,
}

/// The manners that are common, each as often as it stands here.
const MANNERS: [Manner; 20] = [
    Manner::None,
    Manner::None,
    Manner::None,
    Manner::None,
    Manner::None,
    Manner::None,
    Manner::None,
    Manner::None,
    Manner::None,
    Manner::None,
    Manner::Few,
    Manner::Few,
    Manner::Few,
    Manner::Few,
    Manner::Many,
    Manner::OnePlan,
    Manner::Repeats,
    Manner::Service,
    Manner::Cabinet,
    Manner::Cabinet,
];

/// Barred pairs for a road, in any order; none where there is no service.
pub fn bars(random: &mut Random, sheet: &Sheet) -> Vec<Pair> {
    if sheet.services.is_empty() {
        return vec![];
    }
    let manner = match random.below(400) {
        0 => Manner::Most,
        _ => random.pick(&MANNERS),
    };
    let pairs = drawn(random, sheet, manner);
    let order = random.order(pairs.len());
    order.into_iter().map(|k| pairs[k]).collect()
}

fn drawn(random: &mut Random, sheet: &Sheet, manner: Manner) -> Vec<Pair> {
    let (r, s) = (sheet.services.len(), sheet.cabinets.len());
    match manner {
        Manner::None => vec![],
        Manner::Few => few(random, r, s),
        Manner::Many => all(r, s).filter(|_| random.once_in(2)).collect(),
        Manner::OnePlan => all_but_a_plan(random, r, s),
        Manner::Repeats => few(random, r, s).repeat(random.between(2, 5)),
        Manner::Service => one_service(random, r, s),
        Manner::Cabinet => one_cabinet(random, r, s),
        Manner::Most => most(random, r, s),
    }
}

fn pair(service: usize, cabinet: usize) -> Pair {
    Pair::from_words([service as u16, cabinet as u16])
}

/// All pairs of a road.
fn all(r: usize, s: usize) -> impl Iterator<Item = Pair> {
    (0..r * s).map(move |k| pair(k / s, k % s))
}

/// So many pairs, any of which may be the same.
fn some(random: &mut Random, r: usize, s: usize, number: usize) -> Vec<Pair> {
    let draw = |_| pair(random.below(r), random.below(s));
    (0..number).map(draw).collect()
}

fn few(random: &mut Random, r: usize, s: usize) -> Vec<Pair> {
    let number = random.between(1, 3);
    some(random, r, s, number)
}

/// All pairs but those that a random plan uses.
fn all_but_a_plan(random: &mut Random, r: usize, s: usize) -> Vec<Pair> {
    let plan: Vec<usize> = (0..r).map(|_| random.below(s)).collect();
    let unused = |p: &Pair| plan[usize::from(p.service)] != usize::from(p.cabinet);
    all(r, s).filter(unused).collect()
}

/// A service with every cabinet, every other time without one.
fn one_service(random: &mut Random, r: usize, s: usize) -> Vec<Pair> {
    let (service, spared) = (random.below(r), random.below(2 * s));
    let cabinets = (0..s).filter(|&c| c != spared);
    cabinets.map(|c| pair(service, c)).collect()
}

/// A cabinet with every service.
fn one_cabinet(random: &mut Random, r: usize, s: usize) -> Vec<Pair> {
    let cabinet = random.below(s);
    (0..r).map(|service| pair(service, cabinet)).collect()
}

/// Some pairs, and one of them so often that the limit is reached or one is left.
fn most(random: &mut Random, r: usize, s: usize) -> Vec<Pair> {
    let different = random.between(1, r * s);
    let mut pairs = some(random, r, s, different);
    pairs.resize(MAX_PAIRS - random.below(2), pairs[0]);
    pairs
}
