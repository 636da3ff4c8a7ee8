//! Roads on which framing decides, written down one by one with the answers that the papers give.

mod line;
mod path;
mod sets;

use crate::sheet::Sheet;
use crate::written::{Written, streams};

impl Written {
    /// A road without a valid plan, this count, and a plan that overfills a link and no cabinet.
    fn refused(name: &'static str, sheet: Sheet, count: u64, jammed: &[u16]) -> Written {
        let mut road = Written::without_plan(name, sheet, count);
        road.checks.push((jammed.to_vec(), Err(16)));
        road
    }
}

/// All of them.
pub fn all() -> Vec<Written> {
    let mut all = line::all();
    all.extend(path::all());
    all.extend(sets::all());
    all
}
