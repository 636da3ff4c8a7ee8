//! Random layouts of a sheet that the reader accepts.

use super::Random;
use crate::build::{Layout, sizes};
use crate::limits::HEADER;
use crate::sheet::Sheet;

/// Blocks in any order, with gaps and odd offsets; an empty block stands anywhere. A sheet without
/// barred pairs has a barred block only once in four times. Once in eight times all blocks stand
/// as in the tidy copy.
pub fn layout(random: &mut Random, sheet: &Sheet) -> Layout {
    if random.once_in(8) {
        return Layout::tight(sheet);
    }
    let barred = !sheet.barred.is_empty() || random.once_in(4);
    let order = random.order(if barred { 4 } else { 3 });
    let gaps = [(); 5].map(|()| gap(random));
    let mut layout = Layout::spread(sheet, &order, gaps);
    let any = random.next() as u8;
    layout.gap = random.pick(&[0, 0, 255, 90, any]);
    for (block, size) in sizes(sheet).into_iter().enumerate() {
        if size == 0 {
            layout.offsets[block] = match random.below(3) {
                0 => layout.length,
                1 => HEADER,
                _ => random.between(HEADER, layout.length),
            };
        }
    }
    layout
}

/// So many unused bytes: mostly none, sometimes a few, seldom more than a byte can count.
fn gap(random: &mut Random) -> usize {
    match random.below(64) {
        0 => random.between(200, 600),
        1..=16 => random.between(1, 5),
        _ => 0,
    }
}
