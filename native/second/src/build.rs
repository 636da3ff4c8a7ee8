//! A writer of sheets, with blocks wherever one wants them.

use crate::limits::{CABINET, COUNT, HEADER, PAIR, SERVICE, STREAM};
use crate::sheet::Sheet;

/// The places of the service, cabinet, stream and barred blocks, the length, and the byte in the
/// gaps. There is no barred block where its place is 0.
#[derive(Clone, Debug, PartialEq, Eq)]
pub struct Layout {
    pub offsets: [usize; 4],
    pub length: usize,
    pub gap: u8,
}

/// The sizes of the service, cabinet, stream and barred blocks.
pub fn sizes(sheet: &Sheet) -> [usize; 4] {
    [
        SERVICE * sheet.services.len(),
        CABINET * sheet.cabinets.len(),
        STREAM * sheet.streams.len(),
        COUNT + PAIR * sheet.barred.len(),
    ]
}

impl Layout {
    /// Services, cabinets, streams and barred pairs, if any, right behind the header and each
    /// other.
    pub fn tight(sheet: &Sheet) -> Layout {
        let blocks = if sheet.barred.is_empty() { 3 } else { 4 };
        Layout::spread(sheet, &[0, 1, 2, 3][..blocks], [0; 5])
    }

    /// Blocks in this order, with gaps before and between them and the last gap behind them. The
    /// order has all blocks, or all but the barred one.
    pub fn spread(sheet: &Sheet, order: &[usize], gaps: [usize; 5]) -> Layout {
        let sizes = sizes(sheet);
        let mut offsets = [0; 4];
        let mut at = HEADER;
        for (&block, gap) in order.iter().zip(gaps) {
            offsets[block] = at + gap;
            at = offsets[block] + sizes[block];
        }
        Layout {
            offsets,
            length: at + gaps[4],
            gap: 0,
        }
    }
}

/// The bytes of the sheet. Words that don't fit in 16 bits lose their upper part; bytes past the
/// length are dropped; where parts share bytes, the later of barred, service, cabinet, stream,
/// header wins.
pub fn build(sheet: &Sheet, layout: &Layout) -> Vec<u8> {
    let mut bytes = vec![layout.gap; layout.length];
    let [services, cabinets, streams, barred] = layout.offsets;
    let header = [
        sheet.services.len(),
        sheet.cabinets.len(),
        sheet.streams.len(),
        services,
        cabinets,
        streams,
        layout.length,
        barred,
    ];
    if barred != 0 {
        let pairs = sheet.barred.iter().flat_map(|p| p.words());
        put(&mut bytes, barred, [sheet.barred.len() as u16]);
        put(&mut bytes, barred + COUNT, pairs);
    }
    let cabinet_words = sheet.cabinets.iter().flat_map(|c| c.words());
    let stream_words = sheet.streams.iter().flat_map(|t| t.words());
    put(&mut bytes, services, sheet.services.iter().copied());
    put(&mut bytes, cabinets, cabinet_words);
    put(&mut bytes, streams, stream_words);
    put(&mut bytes, 0, header.map(|w| w as u16));
    bytes
}

/// The bytes of the sheet in the tight layout.
pub fn tight(sheet: &Sheet) -> Vec<u8> {
    build(sheet, &Layout::tight(sheet))
}

/// Writes words one after the other from a byte offset, as far as there are bytes.
pub fn put(bytes: &mut [u8], at: usize, words: impl IntoIterator<Item = u16>) {
    let parts = words.into_iter().flat_map(u16::to_le_bytes);
    for (place, byte) in bytes.iter_mut().skip(at).zip(parts) {
        *place = byte;
    }
}
