//! Two roads whose spans lie in the same tables.

use super::Random;
use super::amounts::Scale;
use super::bars::bars;
use super::road::of_numbers;
use crate::sheet::Sheet;
use crate::span::Span;

/// A small road with another number of services and another number of cabinets.
pub fn other_road(random: &mut Random, sheet: &Sheet) -> Sheet {
    let r = unlike(random, sheet.services.len(), 0, 3);
    let s = unlike(random, sheet.cabinets.len(), 1, 4);
    let scale = random.pick(&[Scale::Small, Scale::Small, Scale::Ties]);
    let mut other = of_numbers(random, r, s, scale);
    other.barred = bars(random, &other);
    other
}

/// Any number from `low` to `high` but this one.
fn unlike(random: &mut Random, number: usize, low: usize, high: usize) -> usize {
    match random.between(low, high) {
        drawn if drawn != number => drawn,
        drawn if drawn == high => low,
        drawn => drawn + 1,
    }
}

/// The spans of two roads, and the lengths of both tables.
pub struct Spans {
    pub spans: [Span; 2],
    pub costs: usize,
    pub choices: usize,
}

/// Two spans that share no entry, for roads that need so many entries: in either order, touching or
/// with a gap, with entries before them and behind them or without.
pub fn side_by_side(random: &mut Random, entries: [usize; 2]) -> Spans {
    let mut some = || {
        let few = random.between(1, 5);
        few * random.below(2)
    };
    let numbers = entries.map(|entries| entries + some());
    let (before, gap) = (some(), some());
    let (costs_behind, choices_behind) = (some(), some());
    let lower = random.below(2);
    let mut spans = numbers.map(|number| Span {
        first: before,
        number,
    });
    spans[1 - lower].first = before + numbers[lower] + gap;
    let end = spans[1 - lower].first + numbers[1 - lower];
    Spans {
        spans,
        costs: end + costs_behind,
        choices: end + choices_behind,
    }
}
