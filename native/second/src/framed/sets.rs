//! Framing that decides which sets can be placed, and which of several ways a stream takes.

use super::line::line;
use super::{Written, streams};
use crate::limits::{AMOUNT, NO_PARENT};
use crate::sheet::{Cabinet, Pair, Sheet};

pub fn all() -> Vec<Written> {
    let all = [
        beside_the_root(),
        under_the_root(),
        two_links_down(),
        dearer_way(),
        unpriced(),
        barred_ways(),
        order(),
    ];
    all.into_iter().flatten().collect()
}

/// Two services of demand 1 and these streams between them. The root has this room, cabinet 1 has
/// room for one, and cabinet 2 for both. It is the cheapest, so that (2,2) costs 2 and no stream
/// runs; only the count tells what the link of cabinet 1 carries.
fn aside(root: u16, words: &[[u16; 3]], [up, down]: [u16; 2]) -> Sheet {
    Sheet {
        services: vec![1, 1],
        cabinets: vec![
            Cabinet::from_words([NO_PARENT, root, 9, 0, 0, 0, 0]),
            Cabinet::from_words([0, 1, 9, up, 1, down, 1]),
            Cabinet::from_words([0, 2, 1, AMOUNT, 1, AMOUNT, 1]),
        ],
        streams: streams(words),
        barred: vec![],
    }
}

/// The same with this count.
fn counted(name: &'static str, sheet: Sheet, count: u64) -> Written {
    Written::planned(name, sheet, [2, count], &[2, 2])
}

/// Before 1 and before 2 no service or either can be placed on the root. Before 2 also both, if the
/// stream between them gets up or down the link of 1.
fn beside_the_root() -> Vec<Written> {
    const EITHER: u64 = 2 * (4 + 2 + 2);
    let road = |capacities| aside(1, &[[0, 1, 3]], capacities);
    let (down, up) = (([0, 1], Ok(21)), ([1, 0], Ok(21)));
    let jammed = [([0, 1], Err(16)), ([1, 0], Err(16))];
    vec![
        counted("both before 2, up", road([5, 4]), EITHER + 1).checked(&[up, jammed[0]]),
        counted("both before 2, down", road([4, 5]), EITHER + 1).checked(&[down, jammed[1]]),
        counted("both before 2, one short", road([4, 4]), EITHER).checked(&jammed),
    ]
}

/// The root holds nothing. Before 1 and before 2 no service can be placed; before 2 also the one
/// that sends, if its streams get up to the root, and the one that receives, if they get down.
fn under_the_root() -> Vec<Written> {
    const NONE: u64 = 2 * 4;
    let one = |capacities| aside(0, &[[0, 1, 3]], capacities);
    let two = |capacities| aside(0, &[[0, 1, 1]; 2], capacities);
    let idle = aside(0, &[[0, 1, 0], [1, 0, 0]], [0, 0]);
    vec![
        counted("either before 2", one([5, 5]), NONE + 4),
        counted("the sender before 2", one([5, 4]), NONE + 2),
        counted("the receiver before 2", one([4, 5]), NONE + 2),
        counted("neither before 2", one([4, 4]), NONE),
        counted("either before 2, two streams", two([6, 6]), NONE + 4),
        counted("the sender of two before 2", two([6, 5]), NONE + 2),
        counted("the receiver of two before 2", two([5, 6]), NONE + 2),
        counted("neither before 2, two streams", two([5, 5]), NONE),
        counted("either before 2, streams of 0", idle, NONE + 4),
    ]
}

/// Cabinet 3, under 1, has room for one service in its stead; before 3 none can be placed either.
fn two_links_down() -> Vec<Written> {
    const NONE: u64 = 3 * 4;
    let road = |[up_1, up_3, down_1, down_3]: [u16; 4]| {
        let mut sheet = aside(0, &[[0, 1, 3]], [up_1, down_1]);
        sheet.cabinets[1].capacity = 0;
        let third = Cabinet::from_words([1, 1, 9, up_3, 1, down_3, 1]);
        sheet.cabinets.push(third);
        sheet
    };
    let short = |name, capacities| counted(name, road(capacities), NONE + 2);
    vec![
        counted("two links down", road([5; 4]), NONE + 4),
        short("two links down, short up at 1", [4, 5, 5, 5]),
        short("two links down, short up at 3", [5, 4, 5, 5]),
        short("two links down, short down at 1", [5, 5, 4, 5]),
        short("two links down, short down at 3", [5, 5, 5, 4]),
    ]
}

/// Service 0 fits on the root alone; service 1 beside it on 1 or 2, which have these prices, down
/// capacities and down prices. A stream of 3 runs down.
fn ways(words: [[u16; 3]; 2]) -> Sheet {
    let way = |[price, down, down_price]: [u16; 3]| {
        Cabinet::from_words([0, 1, price, 0, 0, down, down_price])
    };
    let root = Cabinet::from_words([NO_PARENT, 2, 2, 0, 0, 0, 0]);
    Sheet {
        services: vec![2, 1],
        cabinets: vec![root, way(words[0]), way(words[1])],
        streams: streams(&[[0, 1, 3]]),
        barred: vec![],
    }
}

/// Before 1 and before 2 no service or either can be placed on the root; before 2 also both, if the
/// stream gets down to 1.
const EITHER: u64 = 2 * (4 + 2 + 2);

/// The cheaper way just suffices, or lacks a unit, so that the dearer one or none is left.
fn dearer_way() -> Vec<Written> {
    let road = |cheap, dear| ways([[1, cheap, 1], [2, dear, 4]]);
    let jammed = ([0, 1], Err(16));
    vec![
        Written::planned("the cheaper way", road(5, 5), [8, EITHER + 1], &[0, 1])
            .checked(&[([0, 2], Ok(18))]),
        Written::planned("the dearer way", road(4, 5), [18, EITHER], &[0, 2]).checked(&[jammed]),
        Written::refused("neither way", road(4, 4), EITHER, &[0, 2]).checked(&[jammed]),
    ]
}

/// The first way costs 5 + 3 × 4 and the second 9 + 3 × 3; with framing priced the second would be
/// the cheaper one.
fn unpriced() -> Vec<Written> {
    let road = ways([[1, 5, 4], [5, 5, 3]]);
    let road = Written::planned("framing is not priced", road, [17, EITHER + 1], &[0, 1]);
    vec![road.checked(&[([0, 2], Ok(18))])]
}

/// The sheet with one pair barred.
fn barring(mut sheet: Sheet, pair: [u16; 2]) -> Sheet {
    sheet.barred.push(Pair::from_words(pair));
    sheet
}

/// One way is barred and the other just suffices, or lacks a unit.
fn barred_ways() -> Vec<Written> {
    let road = |cheap, dear, pair| barring(ways([[1, cheap, 1], [2, dear, 4]]), pair);
    let (cheap, dear) = (([0, 1], Err(20)), ([0, 2], Err(20)));
    let only_2 = Written::planned("2 left", road(5, 5, [1, 1]), [18, EITHER], &[0, 2]);
    let only_1 = Written::planned("1 left", road(5, 5, [1, 2]), [8, EITHER + 1], &[0, 1]);
    let short_2 = Written::refused("2 left, short", road(5, 4, [1, 1]), EITHER, &[0, 2]);
    let short_1 = Written::refused("1 left, short", road(4, 5, [1, 2]), EITHER, &[0, 1]);
    vec![
        only_2.checked(&[cheap]),
        only_1.checked(&[dear]),
        short_2.checked(&[cheap]),
        short_1.checked(&[dear]),
    ]
}

/// 20 comes before 15, and 15 before 16, where a link lacks a unit each way.
fn order() -> Vec<Written> {
    let road = |pair| barring(line(&[[0, 1, 3], [1, 0, 3]], [4, 4]), pair);
    let jammed = Written::refused("16 after 15 and 20", road([0, 1]), 4 + 2 + 2, &[0, 1]);
    let barred = Written {
        name: "15 and 20 before 16",
        sheet: road([0, 0]),
        answer: [12, 0, 4 + 2],
        plan: vec![],
        checks: vec![],
    };
    let (overfull, forbidden) = (Err(15), Err(20));
    vec![
        jammed.checked(&[([1, 0], forbidden), ([1, 1], forbidden), ([0, 0], overfull)]),
        barred.checked(&[
            ([0, 1], forbidden),
            ([1, 0], overfull),
            ([1, 1], overfull),
            ([0, 0], forbidden),
        ]),
    ]
}
