//! The weighing of one split, over any four figures.

/// The largest figure that is a cost; a larger one is 'none'.
pub const LARGEST_COST: u64 = 1_000_000_000_000_000;

/// The lesser of the best so far and the sum of the other three figures, where all three are
/// costs, else the best so far as it came; and 1 or 0 as `placed`, A's figure, is a cost or not.
pub fn weigh(best: u64, placed: u64, rest: u64, link: u64) -> (u64, u64) {
    let cost = |figure: u64| figure <= LARGEST_COST;
    let figure = if cost(placed) && cost(rest) && cost(link) {
        best.min(placed + rest + link)
    } else {
        best
    };
    (figure, u64::from(cost(placed)))
}
