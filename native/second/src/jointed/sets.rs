//! Joints that decide which sets can be placed, where there is a plan at all, and which of several
//! comes first; and cabinets that are no joints.

use super::{Written, barring, chain, road, star};
use crate::limits::NO_PARENT;

/// All of them.
pub fn all() -> Vec<Written> {
    let all = [
        first_of_several(),
        all_on_one(),
        beside_a_full_one(),
        capacity_of_one(),
        cheapest_price(),
        cut_off_links(),
        barred(),
        no_cabinet_left(),
        no_way_left(),
    ];
    all.into_iter().flatten().collect()
}

/// Two services of demand 0 that may be anywhere but on joints. Where the part before a cabinet has
/// one that is none, every set can be placed there: 9 splits; else the empty set alone: 4.
fn first_of_several() -> Vec<Written> {
    let planned = |name, capacities, count, plan: [u16; 2]| {
        Written::planned(name, star(&[0, 0], capacities), [0, count], &plan)
    };
    let joint = Err(15);
    vec![
        planned("two, no joint", [1, 1, 1], 18, [0, 0]),
        planned("two, a joint at the root", [0, 1, 1], 13, [1, 1]).checked(&[
            ([0, 1], joint),
            ([1, 0], joint),
            ([1, 2], Ok(0)),
            ([2, 1], Ok(0)),
        ]),
        planned("two, leaf 1 left", [0, 1, 0], 13, [1, 1]).checked(&[([1, 2], joint)]),
        planned("two, leaf 2 left", [0, 0, 1], 8, [2, 2]).checked(&[([1, 2], joint)]),
        planned("two, joints at the leaves", [1, 0, 0], 18, [0, 0]).checked(&[([0, 1], joint)]),
    ]
}

/// Five services of demand 0 in a row of which one cabinet is no joint.
fn all_on_one() -> Vec<Written> {
    let sheet = chain(&[0; 5], [0, 0, 1, 0]);
    let road = Written::planned("five on one", sheet, [0, 32 + 32 + 243], &[2; 5]);
    vec![road.checked(&[
        ([2, 2, 2, 2, 3], Err(15)),
        ([0, 2, 2, 2, 2], Err(15)),
        ([2, 2, 1, 2, 2], Err(15)),
    ])]
}

/// The only cabinet under a joint is full with a service of demand 1 and takes two of demand 0 beside
/// it.
fn beside_a_full_one() -> Vec<Written> {
    let cabinets = [[NO_PARENT, 0, 0, 0, 0, 0, 0], [0, 1, 3, 0, 0, 0, 0]];
    let sheet = road(&[1, 0, 0], &cabinets, &[]);
    let full = Written::planned("beside a full cabinet", sheet, [3, 8], &[1, 1, 1]);
    vec![full.checked(&[
        ([1, 0, 1], Err(15)),
        ([1, 1, 0], Err(15)),
        ([1, 0, 0], Err(15)),
        ([0, 1, 1], Err(15)),
    ])]
}

/// A cabinet of capacity 1 is no joint. The service of demand 1 costs 2 on the root and 1 on leaf 2;
/// that of demand 0 is on the root then. On the root every set can be placed.
fn capacity_of_one() -> Vec<Written> {
    let cabinets = [
        [NO_PARENT, 1, 2, 0, 0, 0, 0],
        [0, 0, 1, 0, 0, 0, 0],
        [0, 1, 1, 0, 0, 0, 0],
    ];
    let sheet = road(&[1, 0], &cabinets, &[]);
    let road = Written::planned("capacities of 1", sheet, [1, 9 + 9], &[2, 0]);
    vec![road.checked(&[
        ([2, 2], Ok(1)),
        ([0, 0], Ok(2)),
        ([0, 2], Ok(2)),
        ([2, 1], Err(15)),
        ([1, 0], Err(15)),
    ])]
}

/// A root of this capacity and price over a cabinet of capacity 2 and price 5, for services of
/// demand 0 and 2. What a joint costs does not matter, nor is a cabinet of price 0 a joint.
fn cheapest_price() -> Vec<Written> {
    let sheet = |capacity, price| {
        let cabinets = [
            [NO_PARENT, capacity, price, 0, 0, 0, 0],
            [0, 2, 5, 0, 0, 0, 0],
        ];
        road(&[0, 2], &cabinets, &[])
    };
    let joint = [([0, 1], Err(15)), ([1, 0], Err(15)), ([0, 0], Err(15))];
    vec![
        Written::planned("a joint of price 0", sheet(0, 0), [10, 4], &[1, 1]).checked(&joint),
        Written::planned("a joint of price 9", sheet(0, 9), [10, 4], &[1, 1]).checked(&joint),
        Written::planned("a cabinet of price 0", sheet(2, 0), [0, 9], &[0, 0]).checked(&[
            ([1, 1], Ok(10)),
            ([0, 1], Ok(10)),
            ([1, 0], Ok(0)),
        ]),
        Written::planned("room for 1 at price 0", sheet(1, 0), [10, 4 + 2], &[0, 1])
            .checked(&[([1, 1], Ok(10)), ([1, 0], Err(15))]),
    ]
}

/// What a link carries does not make a joint: the last cabinet holds the service though nothing gets
/// there, and the one before it does not though everything does.
fn cut_off_links() -> Vec<Written> {
    let cabinets = [
        [NO_PARENT, 0, 0, 0, 0, 0, 0],
        [0, 0, 0, 9, 0, 9, 0],
        [0, 1, 9, 0, 9, 0, 9],
    ];
    let sheet = road(&[0], &cabinets, &[]);
    let road = Written::planned("a cabinet that is cut off", sheet, [0, 4], &[2]);
    vec![road.checked(&[([0], Err(15)), ([1], Err(15))])]
}

/// Bars on joints and beside them. 20 comes before 15.
fn barred() -> Vec<Written> {
    let pair = barring(star(&[0], [0, 1, 1]), &[[0, 0]]);
    let other = barring(star(&[0, 0], [0, 1, 1]), &[[1, 0]]);
    let beside = barring(star(&[0, 0], [1, 0, 1]), &[[0, 0]]);
    let whole = barring(star(&[0, 0], [0, 1, 1]), &[[0, 0], [1, 0]]);
    let forbidden = Err(20);
    vec![
        Written::planned("barred from a joint", pair, [0, 2 + 3], &[1])
            .checked(&[([0], forbidden), ([2], Ok(0))]),
        Written::planned("another barred from a joint", other, [0, 4 + 9], &[1, 1]).checked(&[
            ([0, 1], Err(15)),
            ([1, 0], forbidden),
            ([0, 0], forbidden),
        ]),
        // On the root service 1 alone can be placed, and 1 is a joint.
        Written::planned("barred beside a joint", beside, [0, 6 + 6], &[2, 0])
            .checked(&[([0, 0], forbidden), ([1, 0], Err(15)), ([2, 1], Err(15))])
            .checked(&[([0, 1], forbidden), ([2, 2], Ok(0))]),
        Written::planned("a joint barred to all", whole, [0, 4 + 9], &[1, 1]).checked(&[
            ([0, 1], forbidden),
            ([0, 0], forbidden),
            ([2, 2], Ok(0)),
        ]),
    ]
}

/// The only cabinet that is no joint is barred to the service of demand 0, or too small for the other.
fn no_cabinet_left() -> Vec<Written> {
    let sheet = |room| {
        let cabinets = [[NO_PARENT, 0, 0, 0, 0, 0, 0], [0, room, 1, 0, 0, 0, 0]];
        road(&[1, 0], &cabinets, &[])
    };
    let left = barring(sheet(1), &[[1, 1]]);
    let mut small = sheet(1);
    small.services[0] = 2;
    vec![
        Written::without_plan("barred from the only cabinet", left, 4)
            .checked(&[([1, 0], Err(15)), ([1, 1], Err(20)), ([0, 1], Err(20))])
            .checked(&[([0, 0], Err(15))]),
        Written::without_plan("too small, and a joint", small, 4).checked(&[
            ([1, 0], Err(15)),
            ([1, 1], Err(15)),
            ([0, 1], Err(15)),
        ]),
        Written::planned("the only cabinet", sheet(1), [1, 4], &[1, 1])
            .checked(&[([1, 0], Err(15)), ([0, 1], Err(15))]),
    ]
}

/// Service 0, of demand 1, must be on 1, and service 1, of demand 0, may not be there. From 2 its
/// stream of 3, a load of 5, does not get up to the root, where it would go down at once. Before 2 no
/// service or service 0 can be placed; service 1 too, if the root is no joint, and both.
fn no_way_left() -> Vec<Written> {
    let sheet = |root| {
        let cabinets = [
            [NO_PARENT, root, 0, 0, 0, 0, 0],
            [0, 1, 1, 0, 0, 5, 1],
            [0, 1, 1, 4, 0, 0, 0],
        ];
        let sheet = road(&[1, 0], &cabinets, &[[1, 0, 3]]);
        barring(sheet, &[[0, 0], [0, 2], [1, 1]])
    };
    vec![
        Written::without_plan("no way but from a joint", sheet(0), 4 + (4 + 2)).checked(&[
            ([1, 0], Err(15)),
            ([1, 2], Err(16)),
            ([2, 2], Err(20)),
        ]),
        Written::planned(
            "a way from the root",
            sheet(1),
            [4, (4 + 2) + (4 + 2 + 2 + 1)],
            &[1, 0],
        )
        .checked(&[([1, 2], Err(16)), ([1, 1], Err(20))]),
    ]
}
