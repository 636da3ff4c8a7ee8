//! Joints at the root, in the middle, at leaves and everywhere, and services of demand 0 that they
//! do not hold.

use super::{Written, chain, free, star};
use crate::limits::{CABINETS, SERVICES};

/// All of them.
pub fn all() -> Vec<Written> {
    let all = [
        on_a_star(),
        on_a_chain(),
        one_cabinet(),
        no_service(),
        longest(),
        ten_services(),
    ];
    all.into_iter().flatten().collect()
}

/// A service of demand 0, which costs nothing anywhere, goes to the lowest cabinet that is no joint.
/// Before 1 there is the root, before 2 the root and 1; the empty set makes two splits, and the
/// service one more where it can be placed.
fn on_a_star() -> Vec<Written> {
    let planned = |name, capacities, count, plan: [u16; 1]| {
        Written::planned(name, star(&[0], capacities), [0, count], &plan)
    };
    let (free, joint) = (Ok(0), Err(15));
    vec![
        planned("no joint", [1, 1, 1], 6, [0]).checked(&[([1], free), ([2], free)]),
        planned("a joint at the root", [0, 1, 1], 5, [1]).checked(&[([0], joint), ([2], free)]),
        planned("a joint at leaf 1", [1, 0, 1], 6, [0]).checked(&[([1], joint), ([2], free)]),
        planned("a joint at leaf 2", [1, 1, 0], 6, [0]).checked(&[([1], free), ([2], joint)]),
        planned("leaf 2 left", [0, 0, 1], 4, [2]).checked(&[([0], joint), ([1], joint)]),
        planned("leaf 1 left", [0, 1, 0], 5, [1]).checked(&[([0], joint), ([2], joint)]),
        planned("the root left", [1, 0, 0], 6, [0]).checked(&[([1], joint), ([2], joint)]),
        Written::without_plan("joints everywhere", star(&[0], [0; 3]), 4).checked(&[
            ([0], joint),
            ([1], joint),
            ([2], joint),
        ]),
    ]
}

/// The same in a row of four. Before each cabinet there is the one above it.
fn on_a_chain() -> Vec<Written> {
    let planned = |name, capacities, count, plan: [u16; 1]| {
        Written::planned(name, chain(&[0], capacities), [0, count], &plan)
    };
    let (free, joint) = (Ok(0), Err(15));
    vec![
        planned("a joint in the middle", [1, 0, 1, 1], 8, [0])
            .checked(&[([1], joint), ([2], free)]),
        planned("two in the middle", [1, 0, 0, 1], 7, [0]).checked(&[([2], joint), ([3], free)]),
        planned("the end of a row left", [0, 0, 0, 1], 6, [3]).checked(&[([0], joint)]),
        planned("one in a row left", [0, 0, 1, 0], 7, [2]).checked(&[([1], joint), ([3], joint)]),
        planned("below a joint", [0, 1, 0, 0], 7, [1]).checked(&[([0], joint), ([2], joint)]),
        Written::without_plan("a row of joints", chain(&[0], [0; 4]), 6).checked(&[
            ([0], joint),
            ([1], joint),
            ([2], joint),
            ([3], joint),
        ]),
    ]
}

/// A single cabinet, before which nothing is weighed, for one service of demand 0 and for ten.
fn one_cabinet() -> Vec<Written> {
    let all = [0; SERVICES];
    vec![
        Written::without_plan("one joint", free(&[0], 0, &[]), 0)
            .checked(&[([0], Err(15)), ([1], Err(14))])
            .checked(&[([], Err(13))])
            .checked(&[([0, 0], Err(13))]),
        Written::planned("one cabinet", free(&[0], 1, &[]), [0, 0], &[0]),
        Written::without_plan("one joint for ten", free(&all, 0, &[]), 0)
            .checked(&[(all, Err(15))]),
        Written::planned("one cabinet for ten", free(&all, 1, &[]), [0, 0], &all),
    ]
}

/// Without a service the empty plan costs 0 on joints only, and the empty set can be placed before
/// each cabinet.
fn no_service() -> Vec<Written> {
    let planned = |name, sheet, count| Written::planned(name, sheet, [0, count], &[]);
    vec![
        planned("no service, one joint", free(&[], 0, &[]), 0).checked(&[([0], Err(13))]),
        planned("no service, a star of joints", star(&[], [0; 3]), 2),
        planned("no service, a row of joints", chain(&[], [0; 4]), 3),
        planned("no service, a root and joints", star(&[], [1, 0, 0]), 2),
        planned(
            "no service, 200 joints",
            free(&[], 0, &[[0, 0]; CABINETS - 1]),
            199,
        ),
    ]
}

/// 200 cabinets under the root or in a row, all joints but the last, or all.
fn longest() -> Vec<Written> {
    let below = |last: u16, parent: fn(u16) -> u16| -> Vec<[u16; 2]> {
        (1..CABINETS as u16)
            .map(|c| [parent(c), if c == 199 { last } else { 0 }])
            .collect()
    };
    let star = |last| free(&[0], 0, &below(last, |_| 0));
    let row = |last| free(&[0], 0, &below(last, |c| c - 1));
    let joint = Err(15);
    vec![
        Written::planned("199 joints under a root", star(1), [0, 398], &[199])
            .checked(&[([0], joint), ([198], joint)]),
        Written::planned("199 joints in a row", row(1), [0, 398], &[199])
            .checked(&[([0], joint), ([198], joint)]),
        Written::without_plan("200 joints under a root", star(0), 398).checked(&[([199], joint)]),
        Written::without_plan("200 joints in a row", row(0), 398).checked(&[([199], joint)]),
    ]
}

/// Ten services of demand 0 are all on the one cabinet that is no joint: on the root every set can
/// be placed before the leaf, on the leaf the empty set alone.
fn ten_services() -> Vec<Written> {
    let all = [0; SERVICES];
    let road = |root, leaf| free(&all, root, &[[0, leaf]]);
    let mut strayed = all;
    strayed[9] = 1;
    let mut stayed = [1; SERVICES];
    stayed[9] = 0;
    vec![
        Written::planned("ten above a joint", road(1, 0), [0, 59_049], &all)
            .checked(&[(strayed, Err(15))]),
        Written::planned("ten below a joint", road(0, 1), [0, 1_024], &[1; SERVICES])
            .checked(&[(stayed, Err(15))]),
        Written::without_plan("ten and two joints", road(0, 0), 1_024)
            .checked(&[(strayed, Err(15))]),
    ]
}
