//! Plans with a service on a joint and another fault: 13, 14 and 20 come before 15, and 15 before 16.

use super::{Written, barring, road};
use crate::limits::NO_PARENT;
use crate::sheet::Sheet;

/// All of them.
pub fn all() -> Vec<Written> {
    vec![
        alone(),
        before_16(),
        under_it(),
        overfull_too(),
        idle_before_16(),
    ]
}

/// A joint with two cabinets under it that hold 3 each. A stream of 3, a load of 5, runs from a
/// service of demand 0 to one of demand 3, which is barred from 2. The link of 1 has this capacity.
fn fork(capacity: u16) -> Sheet {
    let cabinets = [
        [NO_PARENT, 0, 9, 0, 0, 0, 0],
        [0, 3, 1, capacity, 1, capacity, 1],
        [0, 3, 1, 9, 1, 9, 1],
    ];
    let sheet = road(&[0, 3], &cabinets, &[[0, 1, 3]]);
    barring(sheet, &[[1, 2]])
}

/// The link just suffices, so that 15 is for the joint alone. Before 2 no service, either, and both
/// can be placed on 1.
fn alone() -> Written {
    let road = Written::planned("15 for a joint alone", fork(5), [3, 4 + 9], &[1, 1]);
    road.checked(&[
        ([2, 1], Ok(9)),
        ([0, 1], Err(15)),
        ([0, 0], Err(15)),
        ([0, 2], Err(20)),
        ([1, 2], Err(20)),
        ([0, 3], Err(14)),
        ([3, 0], Err(14)),
        ([0, 65_535], Err(14)),
    ])
    .checked(&[([0], Err(13))])
    .checked(&[([0, 1, 1], Err(13)), ([0, 0, 0], Err(13))])
}

/// It lacks a unit. Before 2 no service and both can be placed on 1, but neither alone.
fn before_16() -> Written {
    let road = Written::planned("15 for a joint before 16", fork(4), [3, 4 + 5], &[1, 1]);
    road.checked(&[
        ([2, 1], Err(16)),
        ([0, 1], Err(15)),
        ([0, 2], Err(20)),
        ([0, 3], Err(14)),
        ([9, 0], Err(14)),
    ])
}

/// The joint is the last cabinet, under one that holds both services; its link carries nothing, so
/// that 16 applies with 15. Service 1 is barred from the joint, and 20 comes before both.
fn under_it() -> Written {
    let cabinets = [
        [NO_PARENT, 0, 0, 0, 0, 0, 0],
        [0, 2, 1, 9, 1, 9, 1],
        [1, 0, 0, 0, 0, 0, 0],
    ];
    let sheet = barring(road(&[2, 0], &cabinets, &[[0, 1, 1]]), &[[0, 2]]);
    // Before 1 there is the joint at the root, and before 2 cabinet 1, which holds any set.
    let road = Written::planned("a joint under the others", sheet, [2, 4 + 9], &[1, 1]);
    road.checked(&[
        ([1, 2], Err(15)),
        ([1, 0], Err(15)),
        ([2, 2], Err(20)),
        ([2, 1], Err(20)),
        ([2, 3], Err(14)),
    ])
}

/// A cabinet is overfull, a service is on a joint, or both: 15 each time.
fn overfull_too() -> Written {
    let cabinets = [[NO_PARENT, 0, 1, 0, 0, 0, 0], [0, 2, 1, 0, 0, 0, 0]];
    let sheet = road(&[0, 3], &cabinets, &[]);
    let road = Written::without_plan("overfull, and on a joint", sheet, 4);
    road.checked(&[
        ([1, 1], Err(15)),
        ([0, 1], Err(15)),
        ([1, 0], Err(15)),
        ([0, 0], Err(15)),
    ])
}

/// Three services of demand 0 on two cabinets under a joint, whose links carry no stream of demand
/// above 0; a stream of 1 joins the first two, which are together then, and one of 0 the last two.
/// Before 2 no service, the first two, the last, and all three can be placed on 1.
fn idle_before_16() -> Written {
    let leaf = [0, 1, 4, 2, 1, 2, 1];
    let cabinets = [[NO_PARENT, 0, 0, 0, 0, 0, 0], leaf, leaf];
    let sheet = road(&[0, 0, 0], &cabinets, &[[0, 1, 1], [1, 2, 0]]);
    let counts = 8 + (8 + 2 + 4 + 1);
    let road = Written::planned("idle on a joint before 16", sheet, [0, counts], &[1, 1, 1]);
    road.checked(&[
        ([1, 1, 2], Ok(0)),
        ([2, 2, 1], Ok(0)),
        ([1, 2, 1], Err(16)),
        ([1, 1, 0], Err(15)),
        ([0, 1, 1], Err(15)),
        ([0, 0, 1], Err(15)),
        ([0, 0, 0], Err(15)),
    ])
}
