//! A span of the tables that are lent.

use std::ops::Range;

/// The entries of both tables that a call works in: the number of the first, and how many there
/// are.
#[derive(Clone, Copy, Debug, Default, PartialEq, Eq)]
pub struct Span {
    pub first: usize,
    pub number: usize,
}

impl Span {
    /// All entries that tables of these lengths have both: the span that a call without one works
    /// in.
    pub fn whole(costs: usize, choices: usize) -> Span {
        Span::from(0..costs.min(choices))
    }

    /// The number of the entry behind the last; none where it is too large for a length.
    pub fn end(self) -> Option<usize> {
        self.first.checked_add(self.number)
    }

    /// Its entries of a table, if the table has them all.
    pub fn of<T>(self, table: &[T]) -> Option<&[T]> {
        table.get(self.first..self.end()?)
    }

    /// The span of so many entries right behind this one, if there is an end to put it at.
    pub fn followed_by(self, number: usize) -> Option<Span> {
        let first = self.end()?;
        Some(Span { first, number })
    }
}

impl From<Range<usize>> for Span {
    /// The entries of a range; none of one that ends before it starts.
    fn from(range: Range<usize>) -> Span {
        Span {
            first: range.start,
            number: range.len(),
        }
    }
}
