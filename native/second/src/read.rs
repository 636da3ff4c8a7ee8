//! The reader: the records of a sheet, or the first refusal that applies to it.

use crate::limits::{
    AMOUNT, CABINET, CABINETS, COUNT, HEADER, MAX_PAIRS, NO_PARENT, PAIR, SERVICE, SERVICES,
    STREAM, STREAMS,
};
use crate::sheet::{Cabinet, Pair, Sheet, Stream};

/// A block of the sheet: where it starts and how many bytes it has.
struct Block {
    offset: usize,
    size: usize,
}

/// Reads a sheet. The error is the first refusal over the whole sheet: 1 to 9, then 18, then 19.
pub fn read(bytes: &[u8]) -> Result<Sheet, u64> {
    refuse(bytes.len() < HEADER, 1)?;
    let header: [usize; 8] = std::array::from_fn(|i| usize::from(word(bytes, 2 * i)));
    let [r, s, q, services, cabinets, streams, length, barred] = header;
    let counts = r <= SERVICES && (1..=CABINETS).contains(&s) && q <= STREAMS;
    refuse(!counts, 2)?;
    refuse(length != bytes.len(), 3)?;
    let blocks = [
        Block::new(services, r * SERVICE),
        Block::new(cabinets, s * CABINET),
        Block::new(streams, q * STREAM),
    ];
    refuse(blocks.iter().any(|b| !b.inside(length)), 4)?;
    refuse(share(&blocks), 5)?;
    let mut sheet = records(bytes, [r, s, q], [services, cabinets, streams]);
    refuse(!amounts(&sheet), 6)?;
    refuse(!parents(&sheet), 7)?;
    refuse(!ends(&sheet), 8)?;
    refuse(sheet.cabinets[0].words()[3..] != [0; 4], 9)?;
    if barred != 0 {
        sheet.barred = pairs(bytes, barred, &blocks)?;
    }
    refuse(!named(&sheet), 19)?;
    Ok(sheet)
}

fn refuse(applies: bool, number: u64) -> Result<(), u64> {
    if applies { Err(number) } else { Ok(()) }
}

/// The word at a byte offset, low byte first.
fn word(bytes: &[u8], at: usize) -> u16 {
    u16::from(bytes[at]) + 256 * u16::from(bytes[at + 1])
}

/// The words that follow one another from a byte offset.
fn words<const N: usize>(bytes: &[u8], at: usize) -> [u16; N] {
    std::array::from_fn(|i| word(bytes, at + 2 * i))
}

impl Block {
    fn new(offset: usize, size: usize) -> Block {
        Block { offset, size }
    }

    fn end(&self) -> usize {
        self.offset + self.size
    }

    /// Starts behind the header and ends at the sheet's length or before, empty or not.
    fn inside(&self, length: usize) -> bool {
        self.offset >= HEADER && self.end() <= length
    }

    /// Some byte is in both; an empty block has no byte.
    fn shares(&self, other: &Block) -> bool {
        self.offset.max(other.offset) < self.end().min(other.end())
    }
}

/// Two of the blocks share a byte.
fn share(blocks: &[Block; 3]) -> bool {
    let [a, b, c] = blocks;
    a.shares(b) || a.shares(c) || b.shares(c)
}

/// All records but the barred pairs, each block from its offset.
fn records(bytes: &[u8], counts: [usize; 3], offsets: [usize; 3]) -> Sheet {
    let [r, s, q] = counts;
    let [services, cabinets, streams] = offsets;
    Sheet {
        services: (0..r)
            .map(|i| word(bytes, services + SERVICE * i))
            .collect(),
        cabinets: (0..s)
            .map(|c| Cabinet::from_words(words(bytes, cabinets + CABINET * c)))
            .collect(),
        streams: (0..q)
            .map(|k| Stream::from_words(words(bytes, streams + STREAM * k)))
            .collect(),
        barred: vec![],
    }
}

/// The barred pairs from their block's offset. The error is 18 where the block is not inside the
/// sheet, has too many pairs, or shares a byte with one of the other blocks.
fn pairs(bytes: &[u8], offset: usize, others: &[Block; 3]) -> Result<Vec<Pair>, u64> {
    refuse(!Block::new(offset, COUNT).inside(bytes.len()), 18)?;
    let count = usize::from(word(bytes, offset));
    let block = Block::new(offset, COUNT + PAIR * count);
    refuse(count > MAX_PAIRS || !block.inside(bytes.len()), 18)?;
    refuse(others.iter().any(|other| block.shares(other)), 18)?;
    let pair = |k| Pair::from_words(words(bytes, offset + COUNT + PAIR * k));
    Ok((0..count).map(pair).collect())
}

/// No demand, capacity or price is above the largest amount; a cabinet's parent is none of them.
fn amounts(sheet: &Sheet) -> bool {
    let services = sheet.services.iter().all(|&d| d <= AMOUNT);
    let cabinets = sheet
        .cabinets
        .iter()
        .all(|c| c.words()[1..].iter().all(|&a| a <= AMOUNT));
    let streams = sheet.streams.iter().all(|t| t.demand <= AMOUNT);
    services && cabinets && streams
}

/// The root names no parent, and any other cabinet a smaller number than its own.
fn parents(sheet: &Sheet) -> bool {
    let mut numbered = sheet.cabinets.iter().enumerate();
    numbered.all(|(c, cabinet)| match c {
        0 => cabinet.parent == NO_PARENT,
        _ => usize::from(cabinet.parent) < c,
    })
}

/// Each stream joins two different services of the sheet.
fn ends(sheet: &Sheet) -> bool {
    let r = sheet.services.len();
    let below = |end: u16| usize::from(end) < r;
    let mut streams = sheet.streams.iter();
    streams.all(|t| below(t.from) && below(t.to) && t.from != t.to)
}

/// Each barred pair names a service and a cabinet of the sheet.
fn named(sheet: &Sheet) -> bool {
    let (r, s) = (sheet.services.len(), sheet.cabinets.len());
    let mut pairs = sheet.barred.iter();
    pairs.all(|p| usize::from(p.service) < r && usize::from(p.cabinet) < s)
}
