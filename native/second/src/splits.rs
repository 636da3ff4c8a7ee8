//! The count of splits weighed, by its definition.

use crate::bars::Bars;
use crate::check::Loads;
use crate::path::{Paths, ancestors};
use crate::plan::advance;
use crate::sheet::Sheet;

/// The number of triples (c, X, A): c not the root, A a subset of X that can be placed on the
/// part before c.
pub fn count(sheet: &Sheet, paths: &Paths) -> u64 {
    count_over(sheet, paths, |c| part_before(sheet, c))
}

/// The same count with another reading of "the part before c".
pub fn count_over(sheet: &Sheet, paths: &Paths, part: impl Fn(usize) -> Vec<usize>) -> u64 {
    let r = sheet.services.len();
    let bars = Bars::new(sheet);
    let mut total = 0;
    for c in 1..sheet.cabinets.len() {
        let part = part(c);
        let p = usize::from(sheet.cabinets[c].parent);
        for mask in 0..1_u32 << r {
            if can_be_placed(sheet, paths, &bars, &part, p, mask) {
                // Each service outside A is in X or not.
                total += 1 << (r as u32 - mask.count_ones());
            }
        }
    }
    total
}

/// The parent p of c, the children of p numbered below c, and all cabinets under those children.
pub fn part_before(sheet: &Sheet, c: usize) -> Vec<usize> {
    let p = sheet.cabinets[c].parent;
    let child = |k: usize| k != 0 && k < c && sheet.cabinets[k].parent == p;
    let inside = |&v: &usize| {
        let mut above = ancestors(sheet, v).into_iter();
        v == usize::from(p) || above.any(child)
    };
    (0..sheet.cabinets.len()).filter(inside).collect()
}

/// Some placing of the services of `mask` on the part uses no barred pair and no joint, and keeps
/// every capacity of the part.
fn can_be_placed(
    sheet: &Sheet,
    paths: &Paths,
    bars: &Bars,
    part: &[usize],
    p: usize,
    mask: u32,
) -> bool {
    let set: Vec<usize> = (0..sheet.services.len())
        .filter(|i| mask >> i & 1 == 1)
        .collect();
    let mut choice = vec![0; set.len()];
    let mut place = vec![None; sheet.services.len()];
    loop {
        for (&service, &k) in set.iter().zip(&choice) {
            place[service] = Some(part[usize::from(k)]);
        }
        if allowed(bars, &place) && keeps(sheet, paths, part, p, &place) {
            return true;
        }
        if !advance(&mut choice, part.len()) {
            return false;
        }
    }
}

/// No placed service is on a cabinet that it is barred from.
fn allowed(bars: &Bars, place: &[Option<usize>]) -> bool {
    let mut places = place.iter().enumerate();
    places.all(|(service, cabinet)| cabinet.is_none_or(|c| !bars.bar(service, c)))
}

/// The placed services and their streams overfill no cabinet of the part and no link in it, and
/// none is on a joint. The end of a stream whose service is not placed counts as being on p.
fn keeps(sheet: &Sheet, paths: &Paths, part: &[usize], p: usize, place: &[Option<usize>]) -> bool {
    let mut loads = Loads::new(sheet.cabinets.len());
    for (place, &demand) in place.iter().zip(&sheet.services) {
        if let Some(cabinet) = place {
            loads.place(*cabinet, demand);
        }
    }
    for stream in &sheet.streams {
        let end = |service: u16| place[usize::from(service)].unwrap_or(p);
        let steps = paths.between(end(stream.from), end(stream.to));
        loads.run(steps, stream.demand);
    }
    let mut cabinets = part.iter();
    cabinets.all(|&v| loads.holds(sheet, v) && (v == p || loads.carries(sheet, v)))
}
