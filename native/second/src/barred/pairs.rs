//! What pairs may name, what they bar, and which of several refusals is given: 18, 19 and 20.

use super::{Directed, lent};
use crate::build::{Layout, build, put, tight};
use crate::limits::{CABINETS, MAX_PAIRS, NO_PARENT, SERVICES};
use crate::measured::m_barred;
use crate::sheet::{Cabinet, Pair, Sheet};

pub fn all() -> Vec<Directed> {
    let all = [
        named(),
        repeated(),
        barred(),
        at_limits(),
        earlier(),
        both(),
    ];
    all.into_iter().flatten().collect()
}

/// M with these pairs.
fn m_accepted(name: &'static str, pairs: &[[u16; 2]], answer: [u64; 3]) -> Directed {
    Directed::accepted(name, tight(&m_barred(pairs)), pairs, answer)
}

/// Pairs with and without a service and a cabinet of M.
fn named() -> Vec<Directed> {
    let refused = |name, pairs: &[[u16; 2]]| Directed::refused(name, tight(&m_barred(pairs)), 19);
    let highest = m_accepted("the highest pair", &[[1, 2]], [0, 15, 18]);
    vec![
        highest.checked(&[([1, 2], Err(20)), ([0, 1], Ok(15))]),
        refused("service r", &[[2, 0]]),
        refused("cabinet s", &[[0, 3]]),
        refused("service 256", &[[256, 0]]),
        refused("cabinet 256", &[[0, 256]]),
        refused("service 65,535", &[[65_535, 0]]),
        refused("cabinet 65,535", &[[0, 65_535]]),
        refused("the first pair wrong", &[[2, 0], [0, 0], [0, 0]]),
        refused("the last pair wrong", &[[0, 0], [0, 0], [0, 3]]),
    ]
}

/// A pair that stands there more than once.
fn repeated() -> Vec<Directed> {
    let once = [([0, 1], Err(20)), ([1, 2], Ok(15)), ([1, 0], Ok(18))];
    vec![
        m_accepted("a pair twice", &[[0, 0]; 2], [0, 15, 15]).checked(&once),
        m_accepted("a pair thrice", &[[0, 0]; 3], [0, 15, 15]).checked(&once),
        m_accepted(
            "a pair around others",
            &[[0, 0], [0, 2], [0, 1], [0, 0]],
            [12, 0, 12],
        ),
    ]
}

/// What is left of M, and 20 before 15 and 16 but after 13 and 14.
fn barred() -> Vec<Directed> {
    let root = m_accepted("(0,0) barred", &[[0, 0]], [0, 15, 15]);
    let nowhere = m_accepted("service 0 barred", &[[0, 0], [0, 1], [0, 2]], [12, 0, 12]);
    let cabinet = m_accepted("cabinet 1 barred", &[[0, 1], [1, 1]], [0, 17, 18]);
    let overfull = m_accepted("20 with 15", &[[0, 1]], [0, 15, 18]);
    let jammed = m_accepted("20 with 16", &[[0, 2]], [0, 15, 18]);
    vec![
        root.checked(&[
            ([0, 1], Err(20)),
            ([0, 0], Err(20)),
            ([1, 2], Ok(15)),
            ([1, 0], Ok(18)),
            ([1, 1], Err(15)),
            ([2, 0], Err(16)),
            ([0, 65_535], Err(14)),
        ]),
        nowhere.checked(&[([0, 1], Err(20)), ([1, 2], Err(20)), ([2, 0], Err(20))]),
        cabinet.checked(&[([0, 2], Ok(17)), ([0, 1], Err(20)), ([1, 1], Err(20))]),
        overfull.checked(&[([1, 1], Err(20)), ([1, 3], Err(14)), ([0, 1], Ok(15))]),
        jammed.checked(&[([2, 0], Err(20)), ([2, 3], Err(14)), ([1, 1], Err(15))]),
    ]
}

/// A star of so many services of demand 1 and cabinets that each hold them all; a service costs
/// 1 on the root and 2 elsewhere.
fn star(r: usize, s: usize, barred: impl Fn(usize, usize) -> bool) -> Sheet {
    let mut cabinets = vec![Cabinet::from_words([0, 10, 2, 0, 0, 0, 0]); s];
    cabinets[0] = Cabinet::from_words([NO_PARENT, 10, 1, 0, 0, 0, 0]);
    let all = (0..r * s).map(|k| (k / s, k % s));
    let pairs = all.filter(|&(service, cabinet)| barred(service, cabinet));
    Sheet {
        services: vec![1; r],
        cabinets,
        streams: vec![],
        barred: pairs
            .map(|(service, cabinet)| Pair::from_words([service as u16, cabinet as u16]))
            .collect(),
    }
}

/// The pairs that name the last of 10 services and the last of 200 cabinets.
fn at_limits() -> Vec<Directed> {
    vec![last_service(), last_cabinet(), every_pair()]
}

/// Service 9 is barred from the root. What is on the root is a set of the other nine, so that two
/// times 3 to the power 9 splits are weighed.
fn last_service() -> Directed {
    let sheet = star(SERVICES, 2, |i, c| i == 9 && c == 0);
    let mut plan = vec![0; SERVICES];
    plan[9] = 1;
    Directed {
        name: "service 9 barred from the root",
        sheet: tight(&sheet),
        read: Ok(sheet.barred),
        checks: vec![(vec![0; SERVICES], Err(20)), (plan, Ok(11))],
        plans: vec![(lent(10, 2_048), [0, 11, 39_366])],
    }
}

/// The only service is barred from all cabinets but the last. Before each of 199 cabinets only
/// the empty set can be placed, with two sets X.
fn last_cabinet() -> Directed {
    let sheet = star(1, CABINETS, |_, c| c != 199);
    Directed {
        name: "all but cabinet 199 barred",
        sheet: tight(&sheet),
        read: Ok(sheet.barred),
        checks: vec![(vec![198], Err(20)), (vec![199], Ok(2))],
        plans: vec![(lent(1, 400), [0, 2, 398])],
    }
}

/// All 2,000 pairs of a road of 10 services and 200 cabinets.
fn every_pair() -> Directed {
    let sheet = star(SERVICES, CABINETS, |_, _| true);
    Directed {
        name: "2,000 different pairs",
        sheet: tight(&sheet),
        read: Ok(sheet.barred),
        checks: vec![(vec![199; 10], Err(20)), (vec![0; 9], Err(13))],
        plans: vec![(lent(10, 204_799), [11, 0, 0])],
    }
}

/// M after this change, with the eighth word 15; and with a pair that names no service.
fn wrong_twice(change: impl Fn(&mut Sheet), refusal: u64) -> [Directed; 2] {
    let mut sheet = m_barred(&[[2, 0]]);
    change(&mut sheet);
    let mut block = tight(&sheet);
    put(&mut block, 14, [15]);
    [
        Directed::refused("18 with an earlier refusal", block, refusal),
        Directed::refused("19 with an earlier refusal", tight(&sheet), refusal),
    ]
}

/// Refusals 2 to 9 come before 18 and 19.
fn earlier() -> Vec<Directed> {
    let mut all = vec![];
    all.extend(wrong_twice(|m| m.services[0] = 10_001, 6));
    all.extend(wrong_twice(|m| m.cabinets[1].parent = 1, 7));
    all.extend(wrong_twice(|m| m.streams[0].to = 0, 8));
    all.extend(wrong_twice(|m| m.cabinets[0].up_price = 1, 9));
    for eighth in [15, 68] {
        for (at, word, refusal) in [(0, 11, 2), (12, 73, 3), (10, 15, 4), (10, 61, 5)] {
            let mut sheet = tight(&m_barred(&[[2, 0]]));
            put(&mut sheet, 14, [eighth]);
            put(&mut sheet, at, [word]);
            let name = "a header with an earlier refusal";
            all.push(Directed::refused(name, sheet, refusal));
        }
    }
    all
}

/// 18 comes before 19.
fn both() -> Vec<Directed> {
    let layout = Layout {
        offsets: [30, 60, 130, 21],
        length: 150,
        gap: 0,
    };
    let sharing = build(&m_barred(&[[2, 0], [0, 0]]), &layout);
    let many = tight(&m_barred(&[[2, 3]; MAX_PAIRS + 1]));
    vec![
        Directed::refused("18 with 19, one byte shared", sharing, 18),
        Directed::refused("18 with 19, 2,001 pairs", many, 18),
    ]
}
