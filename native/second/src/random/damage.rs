//! Sheets that the reader must refuse, or that were damaged blindly.

use super::Random;
use super::layout::layout;
use super::misplaced::{harm_pair, misplace, too_many};
use crate::build::{Layout, build, put, sizes};
use crate::limits::{HEADER, NO_PARENT};
use crate::sheet::{Cabinet, Sheet};

/// How a sheet was damaged.
#[derive(Clone, Copy, Debug, PartialEq, Eq, PartialOrd, Ord)]
pub enum Damage {
    /// So that this refusal applies.
    For(u64),
    /// For several refusals at once.
    Several,
    /// Cut off, with or without a new length word.
    Truncated,
    /// Some bytes set at random.
    Flipped,
    /// Longer than a 16-bit length can say.
    Oversized,
    /// Words at random.
    Noise,
}

/// The reader's refusals, each as often as it stands here.
const REFUSALS: [u64; 15] = [1, 2, 3, 4, 5, 6, 7, 8, 9, 18, 18, 18, 18, 19, 19];

/// A damaged form of the sheet.
pub fn damage(random: &mut Random, sheet: &Sheet) -> (Damage, Vec<u8>) {
    let damage = match random.below(32) {
        0..=19 => Damage::For(random.pick(&REFUSALS)),
        20..=23 => Damage::Several,
        24..=26 => Damage::Truncated,
        27..=29 => Damage::Flipped,
        30 => Damage::Noise,
        _ if random.once_in(4) => Damage::Oversized,
        _ => Damage::Flipped,
    };
    (damage, damaged(random, sheet, damage))
}

fn damaged(random: &mut Random, sheet: &Sheet, damage: Damage) -> Vec<u8> {
    let numbers = match damage {
        Damage::For(number) => vec![number],
        Damage::Several => {
            // Often only refusals of records, or the last ones, so that they meet each other.
            let lowest = random.pick(&[2, 6, 9]);
            let numbers: Vec<u64> = (lowest..=9).chain([18, 19]).collect();
            let order = random.order(numbers.len()).into_iter();
            let some = random.between(2, 4);
            order.take(some).map(|k| numbers[k]).collect()
        }
        Damage::Noise => return noise(random),
        _ => vec![],
    };
    let mut sheet = sheet.clone();
    for &number in &numbers {
        harm_records(random, &mut sheet, number);
    }
    let mut layout = layout(random, &sheet);
    for &number in &numbers {
        harm_layout(random, &sheet, &mut layout, number);
    }
    let mut bytes = build(&sheet, &layout);
    for &number in &numbers {
        harm_bytes(random, &mut bytes, number);
    }
    match damage {
        Damage::Truncated => truncate(random, &mut bytes),
        Damage::Flipped => flip(random, &mut bytes),
        Damage::Oversized => {
            let length = random.pick(&[65_536, 65_536 + layout.length]);
            bytes.resize(length, layout.gap);
            put(&mut bytes, 12, [length as u16]);
        }
        _ => {}
    }
    bytes
}

/// An amount that is too large.
fn too_large(random: &mut Random) -> u16 {
    let any = random.between(10_001, 65_535) as u16;
    random.pick(&[10_001, 10_001, 65_535, any])
}

/// Changes records for refusals 6 to 9, 19, and sometimes 18.
fn harm_records(random: &mut Random, sheet: &mut Sheet, number: u64) {
    let c = random.below(sheet.cabinets.len());
    match number {
        6 => harm_amount(random, sheet),
        7 => {
            let at = c as u16;
            let any = random.below(300) as u16;
            sheet.cabinets[c].parent = match c {
                0 => random.pick(&[0, 65_534, any]),
                _ => random.pick(&[at, at + 1, NO_PARENT, at.saturating_add(any)]),
            };
        }
        8 => harm_end(random, sheet),
        9 => {
            let field = random.between(3, 6);
            let mut words = sheet.cabinets[0].words();
            words[field] = random.pick(&[1, 10_000, 256]);
            sheet.cabinets[0] = Cabinet::from_words(words);
        }
        18 if random.once_in(8) => too_many(random, sheet),
        19 => harm_pair(random, sheet),
        _ => {}
    }
}

/// Puts an amount that is too large into some record.
fn harm_amount(random: &mut Random, sheet: &mut Sheet) {
    let (r, q) = (sheet.services.len(), sheet.streams.len());
    let amount = too_large(random);
    match random.below(3) {
        0 if r > 0 => sheet.services[random.below(r)] = amount,
        1 if q > 0 => sheet.streams[random.below(q)].demand = amount,
        _ => {
            let c = random.below(sheet.cabinets.len());
            let mut words = sheet.cabinets[c].words();
            words[random.between(1, 6)] = amount;
            sheet.cabinets[c] = Cabinet::from_words(words);
        }
    }
}

/// Gives some stream, a new one if need be, a wrong end.
fn harm_end(random: &mut Random, sheet: &mut Sheet) {
    let r = sheet.services.len() as u16;
    if sheet.streams.is_empty() {
        sheet.streams.push(Default::default());
    }
    let k = random.below(sheet.streams.len());
    let stream = &mut sheet.streams[k];
    let end = random.pick(&[r, r + 1, 65_535, 256]);
    match random.below(3) {
        0 => stream.from = end,
        1 => stream.to = end,
        _ => stream.to = stream.from,
    }
}

/// Moves blocks for refusals 4, 5 and 18.
fn harm_layout(random: &mut Random, sheet: &Sheet, layout: &mut Layout, number: u64) {
    let sizes = sizes(sheet);
    match number {
        4 => {
            let b = random.below(3);
            let past = (layout.length + 1).saturating_sub(sizes[b]);
            let wraps = 65_536_usize.saturating_sub(sizes[b]).min(65_535);
            let any = random.below(HEADER);
            layout.offsets[b] = random.pick(&[15, 0, any, past, past, wraps, 65_535]);
        }
        5 => {
            let order = random.order(3);
            let mut full = order.into_iter().filter(|&b| sizes[b] > 0);
            if let (Some(a), Some(b)) = (full.next(), full.next()) {
                // The last byte of one is the first of the other, or they start together.
                let last = layout.offsets[b] + sizes[b] - 1;
                layout.offsets[a] = random.pick(&[last, last, layout.offsets[b]]);
                layout.length = layout.length.max(layout.offsets[a] + sizes[a]);
            }
        }
        18 => misplace(random, sheet, layout),
        _ => {}
    }
}

/// Changes the header or the length for refusals 1 to 3.
fn harm_bytes(random: &mut Random, bytes: &mut Vec<u8>, number: u64) {
    let length = bytes.len();
    match number {
        1 => bytes.truncate(random.pick(&[0, 1, 14, 15, 15])),
        2 => {
            let (at, value) = random.pick(&[(0, 11), (2, 0), (2, 201), (4, 101)]);
            put(bytes, at, [value]);
        }
        3 => match random.below(4) {
            0 => put(bytes, 12, [(length as u16).wrapping_add(1)]),
            1 => put(bytes, 12, [(length as u16).wrapping_sub(1)]),
            2 => bytes.push(0),
            _ => bytes.truncate((length - 1).max(HEADER)),
        },
        _ => {}
    }
}

/// Cuts the sheet anywhere, sometimes right behind the header; every other time the length word
/// says so.
fn truncate(random: &mut Random, bytes: &mut Vec<u8>) {
    let any = random.below(bytes.len());
    let length = random.pick(&[any, any, any, HEADER]);
    bytes.truncate(length);
    if random.once_in(2) {
        put(bytes, 12, [length as u16]);
    }
}

/// Sets one to four bytes at random, often in the header.
fn flip(random: &mut Random, bytes: &mut [u8]) {
    for _ in 0..random.between(1, 4) {
        let within = random.pick(&[HEADER, bytes.len()]);
        let at = random.below(within);
        bytes[at] = match random.below(3) {
            0 => bytes[at].wrapping_add(1),
            1 => bytes[at] ^ (1 << random.below(8)),
            _ => random.next() as u8,
        };
    }
}

/// Any bytes.
fn noise(random: &mut Random) -> Vec<u8> {
    let length = random.below(80);
    (0..length).map(|_| random.next() as u8 & 31).collect()
}
