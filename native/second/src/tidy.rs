//! The tidy copy of a sheet: its records in one form, without gaps.

use crate::limits::HEADER;
use crate::read::read;
use crate::sheet::{Cabinet, Pair, Sheet, Stream};
use std::collections::BTreeSet;

/// Writes the tidy copy of the sheet to the front of the output and gives its length; or gives the
/// first refusal, the reader's or 21, and leaves the output as it is.
pub fn tidy(bytes: &[u8], output: &mut [u8]) -> Result<usize, u64> {
    let copy = copy(&read(bytes)?);
    let front = output.get_mut(..copy.len()).ok_or(21_u64)?;
    front.copy_from_slice(&copy);
    Ok(copy.len())
}

/// The tidy copy of an accepted sheet: header, services, cabinets, streams and barred pairs.
pub fn copy(sheet: &Sheet) -> Vec<u8> {
    let blocks = [
        sheet.services.clone(),
        sheet.cabinets.iter().flat_map(Cabinet::words).collect(),
        sheet.streams.iter().flat_map(Stream::words).collect(),
        barred_block(sheet),
    ];
    let words = [&header(sheet, &blocks)[..], &blocks.concat()].concat();
    words.into_iter().flat_map(u16::to_le_bytes).collect()
}

/// The barred pairs in rising order, service before cabinet, each once.
pub fn in_order(pairs: &[Pair]) -> Vec<Pair> {
    let set: BTreeSet<[u16; 2]> = pairs.iter().map(Pair::words).collect();
    set.into_iter().map(Pair::from_words).collect()
}

/// The words of the barred block; none where there is no pair.
fn barred_block(sheet: &Sheet) -> Vec<u16> {
    let pairs = in_order(&sheet.barred);
    let count = (!pairs.is_empty()).then_some(pairs.len() as u16);
    let words = pairs.iter().flat_map(Pair::words);
    count.into_iter().chain(words).collect()
}

/// The header before blocks that stand one right behind the other. The fourth has no place where
/// it has no word.
fn header(sheet: &Sheet, blocks: &[Vec<u16>; 4]) -> [u16; 8] {
    let mut at = HEADER;
    let [services, cabinets, streams, barred] = blocks.each_ref().map(|block| {
        let start = at;
        at += 2 * block.len();
        start
    });
    let words = [
        sheet.services.len(),
        sheet.cabinets.len(),
        sheet.streams.len(),
        services,
        cabinets,
        streams,
        at,
        if blocks[3].is_empty() { 0 } else { barred },
    ];
    words.map(|word| word as u16)
}
