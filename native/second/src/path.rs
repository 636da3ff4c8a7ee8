//! The only simple path between two cabinets, cabinet by cabinet.

use crate::sheet::Sheet;

/// A link of a path, named by the cabinet below it, and the direction taken.
#[derive(Clone, Copy, Debug, PartialEq, Eq)]
pub enum Step {
    Up(usize),
    Down(usize),
}

/// The cabinets from this one to the root, both included.
pub fn ancestors(sheet: &Sheet, cabinet: usize) -> Vec<usize> {
    let mut list = vec![cabinet];
    let mut at = cabinet;
    while at != 0 {
        at = usize::from(sheet.cabinets[at].parent);
        list.push(at);
    }
    list
}

/// The links from one cabinet to another, in order; none when they are the same.
pub fn path(sheet: &Sheet, from: usize, to: usize) -> Vec<Step> {
    let mut rise = ancestors(sheet, from);
    let mut fall = ancestors(sheet, to);
    while !rise.is_empty() && !fall.is_empty() && rise.last() == fall.last() {
        rise.pop();
        fall.pop();
    }
    let up = rise.into_iter().map(Step::Up);
    let down = fall.into_iter().rev().map(Step::Down);
    up.chain(down).collect()
}

/// The paths between all pairs of cabinets of a road.
pub struct Paths {
    cabinets: usize,
    paths: Vec<Vec<Step>>,
}

impl Paths {
    pub fn new(sheet: &Sheet) -> Paths {
        let cabinets = sheet.cabinets.len();
        let paths = (0..cabinets * cabinets)
            .map(|i| path(sheet, i / cabinets, i % cabinets))
            .collect();
        Paths { cabinets, paths }
    }

    pub fn between(&self, from: usize, to: usize) -> &[Step] {
        &self.paths[from * self.cabinets + to]
    }
}
