//! Paths of several links: a stream is billed on each.

use super::{Billed, road};
use crate::sheet::Sheet;

pub fn all() -> Vec<Billed> {
    let mut all = along_a_chain();
    all.extend(over_two_legs());
    all.extend(over_a_shared_link());
    all
}

/// A bill at 10 cents a block, 1 cent a unit of demand and no tax.
fn bill(name: &'static str, sheet: &Sheet, plan: &[u16], lines: &[u64], net: u64) -> Billed {
    Billed::made(name, sheet, plan, [10, 1, 0], lines, [net, 0, net])
}

/// A chain of four cabinets, and a stream of 98, which is a load of 100.
fn along_a_chain() -> Vec<Billed> {
    let sheet = road(&[1, 2], &[0, 1, 2], &[[0, 1, 98]]);
    let chain = |name, plan: [u16; 2], [first, second, third]: [[u64; 2]; 3], net| {
        let lines = [first, second, third, [1, 2]].concat();
        bill(name, &sheet, &plan, &lines, net)
    };
    vec![
        chain("up a chain", [3, 0], [[10, 0], [10, 0], [10, 0]], 33),
        chain("down a chain", [0, 3], [[0, 10], [0, 10], [0, 10]], 33),
        chain("down its end", [1, 3], [[0, 0], [0, 10], [0, 10]], 23),
        chain("up its middle", [2, 1], [[0, 0], [10, 0], [0, 0]], 13),
    ]
}

/// Legs 1, 3 and 2, 4 under a root. A stream of 99, which is a load of 101, runs from service 0 to
/// 1, and one of 97, which is a load of 99, back.
fn over_two_legs() -> Vec<Billed> {
    let sheet = road(&[1, 2], &[0, 0, 1, 2], &[[0, 1, 99], [1, 0, 97]]);
    let legs = |name, plan: [u16; 2], links: [[u64; 2]; 4], net| {
        let lines = [&links.concat()[..], &[1, 2]].concat();
        bill(name, &sheet, &plan, &lines, net)
    };
    let (up, down, idle) = ([20, 10], [10, 20], [0, 0]);
    vec![
        legs("legs 1, 3 and 2, 4", [3, 4], [up, down, up, down], 123),
        legs("legs 2, 4 and 1, 3", [4, 3], [down, up, down, up], 123),
        legs("a leg alone", [1, 3], [idle, idle, down, idle], 33),
        legs("the other alone", [4, 2], [idle, idle, idle, up], 33),
    ]
}

/// Services on each of a chain of three. Streams of 48, which are loads of 50, run from 0 to 2 and
/// from 0 to 1, so that 1 has 100 down and 2 has 50; one of 1, which is a load of 3, runs up from 2.
fn over_a_shared_link() -> Vec<Billed> {
    let sheet = road(&[1, 2, 3], &[0, 1], &[[0, 2, 48], [0, 1, 48], [2, 1, 1]]);
    let lines = [0, 10, 10, 10, 1, 2, 3];
    vec![bill("a shared link", &sheet, &[0, 1, 2], &lines, 36)]
}
