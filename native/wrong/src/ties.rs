//! The best split of a set so far, how the planner settles ties with it, and the faults in that.

use crate::keys::Key;
use crate::rows::NONE;
use crate::{Fault, Faulty};

/// A split of a set: what stays on the part before the child, what the split costs, and the key of
/// its placing.
#[derive(Clone, Copy)]
pub struct Split {
    pub stays: usize,
    pub cost: u64,
    pub key: Key,
}

/// The best split so far.
pub struct Best {
    pub split: Split,
    /// A tie was settled for this set.
    settled: bool,
}

impl Best {
    /// No split yet.
    pub fn none() -> Best {
        Best {
            split: Split {
                stays: 0,
                cost: NONE,
                key: Key::default(),
            },
            settled: false,
        }
    }
}

impl Faulty {
    /// Takes a split whose cost is less, or the same with a key that comes first. True if its cost
    /// is less. The second cost counts every figure that is 'none' as 0.
    pub fn take(&self, p: usize, best: &mut Best, split: Split, without_none: u64) -> bool {
        let held = best.split;
        if split.cost < held.cost {
            if self.has(Fault::PlanFirstFound) && held.cost < NONE {
                return false;
            }
            best.split = split;
            if self.has(Fault::TieOldKey) && held.cost < NONE {
                best.split.key = held.key;
            }
            return true;
        }
        let cost = match self.has(Fault::TieNone) {
            true => without_none,
            false => split.cost,
        };
        if cost == held.cost && cost < NONE && self.settle(p, best, split) {
            best.split = Split { cost, ..split };
        }
        false
    }

    /// Of two splits that cost the same, the new one is taken.
    fn settle(&self, p: usize, best: &mut Best, split: Split) -> bool {
        let again = std::mem::replace(&mut best.settled, true);
        match self.0 {
            Some(Fault::TieEarlier) => false,
            Some(Fault::TieLast) => true,
            Some(Fault::TieBySet) => split.stays.reverse_bits() > best.split.stays.reverse_bits(),
            Some(Fault::TieAtRootOnly) if p != 0 => false,
            Some(Fault::TieNotAtRoot) if p == 0 => false,
            Some(Fault::TieOnce) if again => false,
            _ => self.before(split.key, best.split.key),
        }
    }
}
