//! Joins a child's row to its parent's.

use crate::NONE;

/// Weighs every split of every set X into A, on the part joined so far, and the rest, on the
/// child. X falls, so that every A below X still has its old figure. Gives the number of splits
/// whose A can be placed.
pub fn join(placed: &mut [u64], child: &[u64], link: &[u64], choices: &mut [u16]) -> u64 {
    let mut count = 0;
    for set in (0..placed.len()).rev() {
        let mut best = NONE;
        let mut choice = 0;
        let mut a = set;
        loop {
            let rest = set & !a;
            let (figure, flag) = weigh(best, placed[a], child[rest], link[rest]);
            count += flag;
            if figure < best {
                best = figure;
                choice = a;
            }
            if a == 0 {
                break;
            }
            a = (a - 1) & set;
        }
        placed[set] = best;
        choices[set] = choice as u16;
    }
    count
}

/// The lesser of the best so far and the sum, and whether A's figure is a cost.
#[inline]
fn weigh(best: u64, placed: u64, rest: u64, link: u64) -> (u64, u64) {
    let cost = |figure: u64| figure < NONE;
    let sum = placed.wrapping_add(rest).wrapping_add(link);
    let whole = cost(placed) && cost(rest) && cost(link);
    let figure = if whole && sum < best { sum } else { best };
    (figure, u64::from(cost(placed)))
}
