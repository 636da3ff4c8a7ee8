//! What is told apart about the form of an accepted sheet.

use crate::build::sizes;
use crate::limits::{CABINET, HEADER, SERVICE};
use crate::read::read;
use crate::sheet::{Pair, Sheet};
use crate::tidy::{copy, in_order};

/// A property of a sheet's form.
#[derive(Clone, Copy, Debug, PartialEq, Eq, PartialOrd, Ord)]
pub enum Form {
    /// The sheet is its own tidy copy.
    Tidy,
    /// A byte behind the header is in no block.
    Gaps,
    /// A block with bytes starts at an odd offset.
    OddOffset,
    /// A block with bytes stands before one that comes earlier in the tidy copy.
    OtherOrder,
    /// A block without a byte is not where it would stand without gaps.
    EmptyElsewhere,
    /// A barred pair stands several times.
    RepeatedPairs,
    /// A barred pair stands right before a lower one.
    FallingPairs,
    /// There is a barred block without a pair.
    CountOfNone,
    /// There is no service.
    NoService,
    /// There is no stream.
    NoStream,
}

impl Form {
    /// All properties.
    pub const ALL: [Form; 10] = [
        Form::Tidy,
        Form::Gaps,
        Form::OddOffset,
        Form::OtherOrder,
        Form::EmptyElsewhere,
        Form::RepeatedPairs,
        Form::FallingPairs,
        Form::CountOfNone,
        Form::NoService,
        Form::NoStream,
    ];
}

/// A block with bytes: where it starts and how many it has.
type Block = (usize, usize);

/// The properties of a sheet's form; none of a refused one.
pub fn forms(bytes: &[u8]) -> Vec<Form> {
    let Ok(sheet) = read(bytes) else {
        return vec![];
    };
    let blocks = blocks(bytes, &sheet);
    let pairs: Vec<[u16; 2]> = sheet.barred.iter().map(Pair::words).collect();
    let applies = |form: &Form| match form {
        Form::Tidy => bytes == copy(&sheet),
        Form::Gaps => HEADER + blocks.iter().map(|b| b.1).sum::<usize>() < bytes.len(),
        Form::OddOffset => blocks.iter().any(|b| b.0 % 2 == 1),
        Form::OtherOrder => !blocks.is_sorted(),
        Form::EmptyElsewhere => empty_elsewhere(bytes, &sheet),
        Form::RepeatedPairs => in_order(&sheet.barred).len() < pairs.len(),
        Form::FallingPairs => !pairs.is_sorted(),
        Form::CountOfNone => offset(bytes, 3) != 0 && pairs.is_empty(),
        Form::NoService => sheet.services.is_empty(),
        Form::NoStream => sheet.streams.is_empty(),
    };
    Form::ALL.into_iter().filter(applies).collect()
}

/// The offset of a block as the header has it: services, cabinets, streams, barred pairs.
fn offset(bytes: &[u8], block: usize) -> usize {
    let at = if block == 3 { 14 } else { 6 + 2 * block };
    usize::from(u16::from_le_bytes([bytes[at], bytes[at + 1]]))
}

/// The blocks with bytes, in the order of the tidy copy.
fn blocks(bytes: &[u8], sheet: &Sheet) -> Vec<Block> {
    let sized = sizes(sheet).into_iter().enumerate();
    let blocks = sized.map(|(block, size)| (offset(bytes, block), size));
    blocks.filter(|&(at, size)| at != 0 && size != 0).collect()
}

/// A block without a byte is not right behind the one before it in a sheet without gaps.
fn empty_elsewhere(bytes: &[u8], sheet: &Sheet) -> bool {
    let [r, s] = [sheet.services.len(), sheet.cabinets.len()];
    let streams = HEADER + SERVICE * r + CABINET * s;
    r == 0 && offset(bytes, 0) != HEADER || sheet.streams.is_empty() && offset(bytes, 2) != streams
}
