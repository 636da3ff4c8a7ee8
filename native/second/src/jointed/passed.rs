//! Streams that pass joints, and streams that a service on a joint would send a shorter way.

use super::{Written, road};
use crate::limits::{AMOUNT, NO_PARENT};
use crate::measured::z;
use crate::sheet::Sheet;

/// All of them.
pub fn all() -> Vec<Written> {
    let all = [
        along_a_row(),
        through_the_root(),
        over_a_fork(),
        hub(),
        middle(),
        idle_streams(),
    ];
    all.into_iter().flatten().collect()
}

/// Two joints between two cabinets that hold one of two services each, and a stream of this demand
/// from service 0 to 1. A unit costs 1 on each link up and 2 on each down.
fn row(demand: u16, capacity: u16) -> Sheet {
    let link = [capacity, 1, capacity, 2];
    let below =
        |parent, room| -> [u16; 7] { [parent, room, 0, link[0], link[1], link[2], link[3]] };
    let cabinets = [
        [NO_PARENT, 1, 0, 0, 0, 0, 0],
        below(0, 0),
        below(1, 0),
        below(2, 1),
    ];
    road(&[1, 1], &cabinets, &[[0, 1, demand]])
}

/// A stream of 5 is a load of 7 on each of three links. Before the first there is the root, which
/// holds no service or either; before the others a joint.
fn along_a_row() -> Vec<Written> {
    const COUNT: u64 = (4 + 2 + 2) + 4 + 4;
    let up = |name, demand, capacity, cost| {
        let sheet = row(demand, capacity);
        Written::planned(name, sheet, [cost, COUNT], &[3, 0])
    };
    vec![
        up("a stream past two joints", 5, 7, 15).checked(&[([0, 3], Ok(30)), ([0, 1], Err(15))]),
        Written::without_plan("a stream past two joints, one short", row(5, 6), COUNT)
            .checked(&[([3, 0], Err(16)), ([0, 3], Err(16))]),
        Written::planned("a stream of 0 past joints", row(0, 0), [0, COUNT], &[0, 3])
            .checked(&[([3, 0], Ok(0))]),
        up("a stream of 1 past joints", 1, 3, 3).checked(&[([0, 3], Ok(6))]),
    ]
}

/// A joint with two cabinets under it that hold one service each. A stream of 3 goes up at 1 and down
/// at 10. Before 1 there is the joint; before 2 also 1, with either service.
fn through_the_root() -> Vec<Written> {
    let sheet = |[up, down]: [u16; 2]| {
        let leaf = [0, 1, 0, up, 1, down, 10];
        let cabinets = [[NO_PARENT, 0, 0, 0, 0, 0, 0], leaf, leaf];
        road(&[1, 1], &cabinets, &[[0, 1, 3]])
    };
    let jammed = [([1, 2], Err(16)), ([2, 1], Err(16))];
    vec![
        Written::planned("through a joint", sheet([5, 5]), [33, 4 + 8], &[1, 2]).checked(&[
            ([2, 1], Ok(33)),
            ([0, 1], Err(15)),
            ([0, 0], Err(15)),
        ]),
        Written::without_plan("through a joint, short up", sheet([4, 5]), 4 + 6).checked(&jammed),
        Written::without_plan("through a joint, short down", sheet([5, 4]), 4 + 6).checked(&jammed),
    ]
}

/// A joint under a joint, with two cabinets under it that hold a service of demand 1 each and any of
/// demand 0. A stream of 4, a load of 6, runs from the idle one to the other. Before 3 there are the
/// joint and 2, which can hold either service and both.
fn over_a_fork() -> Vec<Written> {
    let leaf = [1, 1, 0, 6, 1, 6, 1];
    let cabinets = [
        [NO_PARENT, 0, 0, 0, 0, 0, 0],
        [0, 0, 0, 6, 1, 6, 1],
        leaf,
        leaf,
    ];
    let sheet = road(&[1, 0], &cabinets, &[[1, 0, 4]]);
    let together = Written::planned("together under a joint", sheet, [0, 4 + 4 + 9], &[2, 2]);
    vec![together.checked(&[
        ([3, 3], Ok(0)),
        ([2, 3], Ok(8)),
        ([3, 2], Ok(8)),
        ([2, 1], Err(15)),
        ([2, 0], Err(15)),
    ])]
}

/// Z, whose root is a joint, and the same with a root of capacity 1, which holds the idle service.
/// That sends 3 down each link then, which costs 6 less than 3 up at 2 and down at 1 beside it.
/// On such a root no service or the idle one can be placed before 1. Before 2 no service, any alone,
/// and the idle one with either: 8 + 3 × 4 + 2 × 2. Before 2 on Z the idle one alone cannot be on 1,
/// since 10 units would go up a line of 6: 8 + 2 × 4 + 2 × 2.
fn hub() -> Vec<Written> {
    let mut boxed = z();
    boxed.cabinets[0].capacity = 1;
    vec![
        Written::planned("Z", z(), [15, 8 + 20], &[1, 2, 1]).checked(&[
            ([2, 1, 1], Ok(15)),
            ([1, 2, 0], Err(15)),
            ([2, 1, 0], Err(15)),
            ([1, 2, 2], Err(16)),
        ]),
        Written::planned("Z with a power box", boxed, [12, 12 + 24], &[1, 2, 0])
            .checked(&[([2, 1, 0], Ok(12)), ([1, 2, 1], Ok(15))]),
    ]
}

/// A row of three whose ends hold a service of demand 2 each, and the middle none of them. An idle
/// service sends 2 to either. From the middle that costs 2 up and 2 down; from the end 2 × 2 and 2
/// up, from the root 2 × 3 and 2 down. The root holds no service, any alone, and the idle one with
/// either: 8 + 3 × 4 + 2 × 2. The middle holds none, or the idle one if it is no joint: 8 + 4.
fn middle() -> Vec<Written> {
    let sheet = |capacity| {
        let cabinets = [
            [NO_PARENT, 2, 0, 0, 0, 0, 0],
            [0, capacity, 0, AMOUNT, 1, AMOUNT, 3],
            [1, 2, 0, AMOUNT, 2, AMOUNT, 1],
        ];
        road(&[2, 2, 0], &cabinets, &[[2, 0, 2], [2, 1, 2]])
    };
    vec![
        Written::planned("a joint between", sheet(0), [6, 24 + 8], &[0, 2, 2]).checked(&[
            ([2, 0, 2], Ok(6)),
            ([0, 2, 0], Ok(8)),
            ([0, 2, 1], Err(15)),
            ([2, 0, 1], Err(15)),
        ]),
        Written::planned("a cabinet between", sheet(1), [4, 24 + 12], &[0, 2, 1])
            .checked(&[([2, 0, 1], Ok(4)), ([0, 2, 2], Ok(6))]),
    ]
}

/// Two services of demand 0 with a stream of demand 0, on lines of capacity 0: both are on the only
/// cabinet that is no joint, or on any two.
fn idle_streams() -> Vec<Written> {
    let sheet = |[root, one, two]: [u16; 3]| {
        let leaf = |capacity| [0, capacity, 7, 0, 7, 0, 7];
        let cabinets = [[NO_PARENT, root, 7, 0, 0, 0, 0], leaf(one), leaf(two)];
        road(&[0, 0], &cabinets, &[[0, 1, 0]])
    };
    vec![
        Written::planned(
            "an idle stream, 1 left",
            sheet([0, 1, 0]),
            [0, 4 + 9],
            &[1, 1],
        )
        .checked(&[([0, 1], Err(15)), ([1, 2], Err(15))]),
        Written::planned(
            "an idle stream past a joint",
            sheet([0, 1, 1]),
            [0, 4 + 9],
            &[1, 1],
        )
        .checked(&[([1, 2], Ok(0)), ([2, 1], Ok(0)), ([2, 0], Err(15))]),
        Written::without_plan("an idle stream, no cabinet", sheet([0; 3]), 4 + 4)
            .checked(&[([0, 0], Err(15)), ([1, 2], Err(15))]),
    ]
}
