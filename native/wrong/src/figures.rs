//! The weighing and the bound, and their faults.

use crate::{Fault, Faulty};

/// The largest cost.
const MOST: u64 = 1_000_000_000_000_000;

impl Faulty {
    /// The figure and the flag.
    pub fn weighed(&self, [best, placed, rest, link]: [u64; 4]) -> (u64, u64) {
        let cost = |figure: u64| match self.0 {
            Some(Fault::WeighMostIsNone) => figure < MOST,
            Some(Fault::WeighMoreIsCost) => figure <= MOST + 1,
            _ => figure <= MOST,
        };
        let linked = cost(link) || self.has(Fault::WeighLinkFree);
        let whole = cost(placed) && cost(rest) && linked;
        let sum = placed.wrapping_add(rest).wrapping_add(link);
        let counts = whole && (sum <= MOST || !self.has(Fault::WeighSumIsNone));
        let mut figure = if counts { best.min(sum) } else { best };
        if self.has(Fault::WeighTidied) && figure > MOST {
            figure = MOST + 1;
        }
        let flag = match self.has(Fault::WeighFlagOfSum) {
            true => whole,
            false => cost(placed),
        };
        (figure, u64::from(flag))
    }

    /// The refusal, and group and bound.
    pub fn bound_answer(&self, services: usize, cabinets: usize) -> (u64, [u64; 2]) {
        let (r, s) = match self.has(Fault::BoundIn16Bits) {
            true => (services % 65_536, cabinets % 65_536),
            false => (services, cabinets),
        };
        let most = 10 + usize::from(self.has(Fault::BoundEleven));
        if r > most || s > 200 || (s == 0 && !self.has(Fault::BoundNoCabinet)) {
            let group = if self.has(Fault::BoundGroup) { 2 } else { 1 };
            return (2, [group, 0]);
        }
        let joined = match self.has(Fault::BoundAllCabinets) {
            true => s,
            false => s.saturating_sub(1),
        };
        (0, [0, self.product(r as u32, joined as u64)])
    }

    /// The cabinets joined, tripled once for each service.
    fn product(&self, r: u32, joined: u64) -> u64 {
        match self.0 {
            Some(Fault::BoundFactorShort) => joined * 3_u64.pow(r.saturating_sub(1)),
            Some(Fault::BoundFactorOver) => joined * 3_u64.pow(r + 1),
            Some(Fault::BoundTwo) => joined * 2_u64.pow(r),
            Some(Fault::BoundProductIn16Bits) => joined * 3_u64.pow(r) % 65_536,
            Some(Fault::BoundOnePair) if (r, joined) == (7, 132) => joined * 3_u64.pow(r) + 1,
            _ => joined * 3_u64.pow(r),
        }
    }
}
