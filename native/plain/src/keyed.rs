//! A row with the keys of its placings, and a child's joined to it.

use crate::NONE;

/// A placing as a number: each service's cabinet is a digit of eight bits, service 0 the most
/// significant. Of two placings of the same services the one with the lower key comes first.
pub type Key = u128;

/// Bits of a digit.
const DIGIT: usize = 8;

/// The key of a set of r services that are all on one cabinet.
pub fn key(r: usize, set: usize, cabinet: usize) -> Key {
    let inside = (0..r).filter(|i| set >> i & 1 == 1);
    inside
        .map(|i| (cabinet as Key) << (DIGIT * (r - 1 - i)))
        .sum()
}

/// The cabinets of all r services.
pub fn digits(r: usize, key: Key) -> Vec<u16> {
    let digit = |i: usize| (key >> (DIGIT * (r - 1 - i))) as u16 % (1 << DIGIT);
    (0..r).map(digit).collect()
}

/// For each set of services the least charge and the key of the first placing of that charge.
#[derive(Clone, Default)]
pub struct Row {
    pub costs: Vec<u64>,
    pub keys: Vec<Key>,
}

/// What a join counts, and whether a sum of three costs was just above the largest: then there is
/// no cost, and it is left open what stays.
pub struct Joined {
    pub count: u64,
    pub open: bool,
}

impl Row {
    /// Joins a child to the part that this row is of. X falls, so that every A below X still has
    /// its old figure. The choice of the empty set is the count.
    pub fn join(&mut self, child: &Row, link: &[u64], choices: &mut [u16]) -> Joined {
        let mut joined = Joined {
            count: 0,
            open: false,
        };
        for set in (0..self.costs.len()).rev() {
            let (cost, key, stays) = self.split(child, link, set, &mut joined);
            self.costs[set] = cost;
            self.keys[set] = key;
            choices[set] = stays as u16;
        }
        choices[0] = joined.count as u16;
        joined
    }

    /// The least cost of a set, the key of its first placing of that cost, and what stays then.
    fn split(
        &self,
        child: &Row,
        link: &[u64],
        set: usize,
        joined: &mut Joined,
    ) -> (u64, Key, usize) {
        let mut best = (NONE, child.keys[set], 0);
        let mut stays = set;
        loop {
            let rest = set & !stays;
            let figures = [self.costs[stays], child.costs[rest], link[rest]];
            joined.count += u64::from(figures[0] < NONE);
            if figures.iter().all(|&figure| figure < NONE) {
                let cost: u64 = figures.iter().sum();
                joined.open |= cost == NONE;
                if cost < NONE && cost <= best.0 {
                    let key = self.keys[stays] + child.keys[rest];
                    best = best_of(best, (cost, key, stays));
                }
            }
            if stays == 0 {
                return best;
            }
            stays = (stays - 1) & set;
        }
    }
}

/// The cheaper split, or of two that cost the same the one whose key is lower.
fn best_of(best: (u64, Key, usize), split: (u64, Key, usize)) -> (u64, Key, usize) {
    match (split.0, split.1) < (best.0, best.1) {
        true => split,
        false => best,
    }
}
