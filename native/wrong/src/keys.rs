//! The keys by which the planner settles ties, and their faults.

use crate::rows::{Rows, children};
use crate::{Fault, Faulty};
use second::Sheet;
use std::ops::Add;

/// A placing as a number: each service's cabinet is a digit, service 0 the most significant. The
/// last five services stand in the low half.
#[derive(Clone, Copy, Debug, Default, PartialEq, Eq, PartialOrd, Ord)]
pub struct Key {
    high: u64,
    low: u64,
}

/// Services in each half of a key.
const HALF: usize = 5;

impl Add for Key {
    type Output = Key;

    /// The key of two placings of different services together.
    fn add(self, other: Key) -> Key {
        Key {
            high: self.high + other.high,
            low: self.low + other.low,
        }
    }
}

impl Key {
    /// The key of one service whose digit is so many places before the last.
    fn digit(cabinet: usize, place: usize, bits: usize) -> Key {
        let cabinet = cabinet as u64;
        match place < HALF {
            true => Key {
                high: 0,
                low: cabinet << (bits * place),
            },
            false => Key {
                high: cabinet << (bits * (place - HALF)),
                low: 0,
            },
        }
    }
}

impl Faulty {
    /// The keys of all sets that a cabinet holds alone.
    pub fn own_keys(&self, sheet: &Sheet, c: usize) -> Vec<Key> {
        let cabinet = match self.has(Fault::KeyWalk) {
            true => walk(sheet, 0).iter().position(|&v| v == c).unwrap_or(c),
            false => c,
        };
        let r = sheet.services.len();
        let key = |set: usize| {
            let inside = (0..r).filter(|i| set >> i & 1 == 1);
            let digits = inside.map(|i| self.service_key(sheet, i, cabinet));
            digits.fold(Key::default(), Key::add)
        };
        (0..1 << r).map(key).collect()
    }

    /// The key of one service on a cabinet.
    fn service_key(&self, sheet: &Sheet, service: usize, cabinet: usize) -> Key {
        let last = sheet.services.len() - 1;
        let left_out = match self.0 {
            Some(Fault::KeyWithoutFirst) => service == 0,
            Some(Fault::KeyWithoutLast) => service == last,
            Some(Fault::KeyWithoutIdle) => sheet.services[service] == 0,
            _ => false,
        };
        let place = match self.0 {
            Some(Fault::KeyLastFirst) => service,
            Some(Fault::KeySum) => 0,
            _ => last - service,
        };
        let bits = if self.has(Fault::KeySevenBits) { 7 } else { 8 };
        match left_out {
            true => Key::default(),
            false => Key::digit(cabinet, place, bits),
        }
    }

    /// The keys of what the choices give each set under a child that is joined to p.
    pub fn child_keys(&self, rows: &Rows, p: usize, c: usize) -> Vec<Key> {
        match self.0 {
            Some(Fault::KeyChildZero) => vec![Key::default(); rows.keys[c].len()],
            Some(Fault::KeyLastRow) if !rows.keys[p + 1].is_empty() => rows.keys[p + 1].clone(),
            _ => rows.keys[c].clone(),
        }
    }

    /// The key of a split: that of what stays, and that of the rest.
    pub fn split_key(&self, placed: Key, rest: Key) -> Key {
        match self.has(Fault::KeyPartZero) {
            true => rest,
            false => placed + rest,
        }
    }

    /// The first key comes before the second.
    pub fn before(&self, one: Key, other: Key) -> bool {
        match self.0 {
            Some(Fault::KeyHighest) => one > other,
            Some(Fault::KeyHighNot) => one.low < other.low,
            Some(Fault::KeyLowNot) => one.high < other.high,
            Some(Fault::KeyLowFirst) => (one.low, one.high) < (other.low, other.high),
            _ => one < other,
        }
    }
}

/// A cabinet and all under it, each child with all under it before the next.
fn walk(sheet: &Sheet, p: usize) -> Vec<usize> {
    let below = children(sheet, p).into_iter();
    let parts = below.flat_map(|c| walk(sheet, c));
    std::iter::once(p).chain(parts).collect()
}
