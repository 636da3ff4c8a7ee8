//! Barred blocks and pairs that the reader must refuse.

use super::Random;
use crate::build::{Layout, sizes};
use crate::limits::{HEADER, MAX_PAIRS};
use crate::sheet::{Pair, Sheet};

/// Gives some pair, a new one if need be, a service or a cabinet that isn't there.
pub fn harm_pair(random: &mut Random, sheet: &mut Sheet) {
    let [r, s] = [sheet.services.len(), sheet.cabinets.len()].map(|n| n as u16);
    if sheet.barred.is_empty() {
        sheet.barred.push(Pair::default());
    }
    let last = sheet.barred.len() - 1;
    let any = random.between(0, last);
    let pair = &mut sheet.barred[random.pick(&[0, any, last, last])];
    match random.once_in(2) {
        true => pair.service = random.pick(&[r, r, r + 1, 256, 65_535]),
        false => pair.cabinet = random.pick(&[s, s, s + 1, 256, 65_535]),
    }
}

/// Repeats pairs until there are too many; no pair if there is no service.
pub fn too_many(random: &mut Random, sheet: &mut Sheet) {
    if sheet.services.is_empty() {
        return;
    }
    sheet.barred.push(Pair::default());
    let number = MAX_PAIRS + random.pick(&[1, 1, 2, 100]);
    let pairs = sheet.barred.clone().into_iter().cycle();
    sheet.barred = pairs.take(number).collect();
}

/// Moves the barred block, a new one if need be, so that refusal 18 applies. One with too many
/// pairs stays where it is.
pub fn misplace(random: &mut Random, sheet: &Sheet, layout: &mut Layout) {
    if sheet.barred.len() > MAX_PAIRS {
        return;
    }
    match random.below(16) {
        0..=3 => layout.offsets[3] = random.between(1, HEADER - 1),
        4..=8 => cut_off(random, sheet, layout),
        9..=14 => share(random, sheet, layout),
        _ => past_16_bits(sheet, layout),
    }
}

/// Puts the block last, without its last byte, or with one byte or none of its count word; or
/// behind the last byte.
fn cut_off(random: &mut Random, sheet: &Sheet, layout: &mut Layout) {
    let size = sizes(sheet)[3];
    let wraps = 65_536 - size;
    layout.offsets[3] = random.pick(&[layout.length, layout.length, layout.length, wraps]);
    layout.length += random.pick(&[size - 1, size - 1, 1, 0]);
}

/// Lets the block share a byte with another: start on its last byte, start with it, or end on its
/// first byte.
fn share(random: &mut Random, sheet: &Sheet, layout: &mut Layout) {
    let sizes = sizes(sheet);
    let order = random.order(3).into_iter();
    let mut full = order.filter(|&b| sizes[b] > 0);
    if let Some(other) = full.next() {
        let start = layout.offsets[other];
        let last = start + sizes[other] - 1;
        let before = (start + 1).saturating_sub(sizes[3]).max(HEADER);
        layout.offsets[3] = random.pick(&[last, last, start, before, before]);
        layout.length = layout.length.max(layout.offsets[3] + sizes[3]);
    }
}

/// Makes the sheet as long as it can be, and lets the block end one byte past it.
fn past_16_bits(sheet: &Sheet, layout: &mut Layout) {
    layout.length = 65_535;
    layout.offsets[3] = 65_536 - sizes(sheet)[3];
}
