//! Spans of lent tables: such as suffice, with entries before, in and behind them that nobody
//! needs, such as are too short, and such as end past a table, some by numbers whose sum passes 64
//! bits.

use super::{Lent, Random};
use crate::span::Span;

/// How a span lies in its tables.
#[derive(Clone, Copy, Debug, PartialEq, Eq)]
enum Manner {
    /// In both, and long enough.
    Fits,
    /// It is all that both tables have.
    Whole,
    /// In both, and too short.
    Short,
    /// Of no entry, behind the last of the shorter table.
    Empty,
    /// Some entries past the shorter table.
    Past,
    /// In one table only.
    One,
    /// Its first entry or its number of entries is the largest number, or both are.
    Most,
    /// The sum of both passes 64 bits; what is left of it is within the tables.
    Wraps,
    /// One of them or both would be within the tables in fewer bits.
    Wide,
}

/// The manners, each as often as it stands here.
const MANNERS: [Manner; 13] = [
    Manner::Fits,
    Manner::Fits,
    Manner::Fits,
    Manner::Whole,
    Manner::Short,
    Manner::Empty,
    Manner::Past,
    Manner::Past,
    Manner::One,
    Manner::Most,
    Manner::Most,
    Manner::Wraps,
    Manner::Wide,
];

/// Lengths of what is lent, and a span, for a road that needs so many places and entries. Once in
/// six times there are too few places.
pub fn span(random: &mut Random, places: usize, entries: usize) -> (Lent, Span) {
    let (mut lent, fits) = fitting(random, places, entries);
    let short = lent.costs.min(lent.choices);
    let span = match random.pick(&MANNERS) {
        Manner::Fits if random.once_in(8) => far(&mut lent, fits),
        Manner::Fits => fits,
        Manner::Whole => Span::whole(lent),
        Manner::Short => Span {
            number: fewer(random, entries),
            ..fits
        },
        Manner::Empty => Span {
            first: short,
            number: 0,
        },
        Manner::Past => past(random, fits, short, entries),
        Manner::One => {
            let length = random.pick(&[fits.first + fits.number - 1, fits.first, 0]);
            let table = random.pick(&[true, false]);
            *(if table {
                &mut lent.costs
            } else {
                &mut lent.choices
            }) = length;
            fits
        }
        Manner::Most => most(random, fits, short),
        Manner::Wraps => wraps(random, fits),
        Manner::Wide => wide(random, fits),
    };
    if random.once_in(6) {
        lent.output = random.below(places);
    }
    (lent, span)
}

/// A span that suffices, exactly or with entries to spare, in tables with entries before and behind
/// it or without.
fn fitting(random: &mut Random, places: usize, entries: usize) -> (Lent, Span) {
    let mut some = |spare: &[usize]| {
        let few = random.between(1, 7);
        few * random.pick(spare)
    };
    let (first, number) = (some(&[0, 1, 1]), entries + some(&[0, 0, 1]));
    let lent = Lent {
        output: places + some(&[0, 0, 1]),
        costs: first + number + some(&[0, 1]),
        choices: first + number + some(&[0, 1]),
    };
    (lent, Span { first, number })
}

/// The same span behind 2^16 entries more.
fn far(lent: &mut Lent, fits: Span) -> Span {
    lent.costs += 1 << 16;
    lent.choices += 1 << 16;
    Span {
        first: fits.first + (1 << 16),
        ..fits
    }
}

/// Fewer entries than are needed: often just one.
fn fewer(random: &mut Random, entries: usize) -> usize {
    let one_less = entries.saturating_sub(1);
    random.pick(&[one_less, one_less, entries / 2, 0])
}

/// Some entries past a length, often just one: with more entries, further on, or further on with
/// too few.
fn past(random: &mut Random, fits: Span, length: usize, entries: usize) -> Span {
    let by = random.pick(&[1, 1, 1, 2, 1 + entries]);
    let number = match random.below(3) {
        0 => {
            return Span {
                number: length - fits.first + by,
                ..fits
            };
        }
        1 => fits.number,
        _ => fewer(random, entries),
    };
    Span {
        first: length - number + by,
        number,
    }
}

/// The largest first entry with any number of entries, any first entry with the largest number, or
/// both.
fn most(random: &mut Random, fits: Span, length: usize) -> Span {
    let (first, number) = match random.below(3) {
        0 => (usize::MAX, random.pick(&[0, 1, fits.number])),
        1 => (random.pick(&[0, 1, fits.first, length]), usize::MAX),
        _ => (usize::MAX, usize::MAX),
    };
    Span { first, number }
}

/// The first entry or the number of entries so large that the sum is a small number in 64 bits.
fn wraps(random: &mut Random, fits: Span) -> Span {
    match random.once_in(2) {
        true => Span {
            first: random.below(fits.number).wrapping_sub(fits.number),
            ..fits
        },
        false => {
            let first = fits.first.max(1);
            let number = random.below(first).wrapping_sub(first);
            Span { first, number }
        }
    }
}

/// A bit above those that the first entry and the number of entries have, in one or in both.
fn wide(random: &mut Random, fits: Span) -> Span {
    let bit = random.pick(&[1 << 16, 1 << 32, 1 << 63]);
    let which = random.between(1, 3);
    Span {
        first: fits.first + bit * (which & 1),
        number: fits.number + bit * (which >> 1),
    }
}
