//! Paths of several links: a stream has its framing on each.

use super::{Written, streams};
use crate::limits::NO_PARENT;
use crate::sheet::{Cabinet, Sheet};

pub fn all() -> Vec<Written> {
    let mut all = along_a_chain();
    all.extend(over_two_legs());
    all
}

/// A chain of four cabinets: the root has room for service 0 or 1, the last for service 1 alone,
/// and the others for none. A stream of 3 runs down it, and one of 4 up.
fn chain(ups: [u16; 3], downs: [u16; 3]) -> Sheet {
    Sheet {
        services: vec![2, 1],
        cabinets: vec![
            Cabinet::from_words([NO_PARENT, 2, 1, 0, 0, 0, 0]),
            Cabinet::from_words([0, 0, 0, ups[0], 1, downs[0], 10]),
            Cabinet::from_words([1, 0, 0, ups[1], 2, downs[1], 20]),
            Cabinet::from_words([2, 1, 1, ups[2], 3, downs[2], 30]),
        ],
        streams: streams(&[[0, 1, 3], [1, 0, 4]]),
        barred: vec![],
    }
}

/// Capacities that just suffice on each link, and one short on each in turn. Before the first link
/// no service or either can be placed, before the others none.
fn along_a_chain() -> Vec<Written> {
    const COUNT: u64 = (4 + 2 + 2) + 4 + 4;
    let cost = 3 + 3 * (10 + 20 + 30) + 4 * (1 + 2 + 3);
    let whole = chain([6; 3], [5; 3]);
    let mut all = vec![Written::planned("a chain", whole, [cost, COUNT], &[0, 3])];
    let names = [
        ["a chain, short up at 1", "a chain, short down at 1"],
        ["a chain, short up at 2", "a chain, short down at 2"],
        ["a chain, short up at 3", "a chain, short down at 3"],
    ];
    for (link, [short_up, short_down]) in names.into_iter().enumerate() {
        let (mut ups, mut downs) = ([6; 3], [5; 3]);
        ups[link] -= 1;
        downs[link] -= 1;
        let up = chain(ups, [5; 3]);
        let down = chain([6; 3], downs);
        all.push(Written::refused(short_up, up, COUNT, &[0, 3]));
        all.push(Written::refused(short_down, down, COUNT, &[0, 3]));
    }
    all
}

/// Legs 1, 3 and 2, 4 under a root: service 0 fits on 3 alone, and service 1 beside it on 4 alone. A
/// stream of 3 runs up the first leg and down the second, one of 0 back over lines of 0.
fn legs([up_3, up_1, down_2, down_4]: [u16; 4]) -> Sheet {
    Sheet {
        services: vec![2, 1],
        cabinets: vec![
            Cabinet::from_words([NO_PARENT, 0, 0, 0, 0, 0, 0]),
            Cabinet::from_words([0, 0, 0, up_1, 1, 0, 0]),
            Cabinet::from_words([0, 0, 0, 0, 0, down_2, 2]),
            Cabinet::from_words([1, 2, 1, up_3, 3, 0, 0]),
            Cabinet::from_words([2, 1, 1, 0, 0, down_4, 4]),
        ],
        streams: streams(&[[0, 1, 3], [1, 0, 0]]),
        barred: vec![],
    }
}

/// Capacities that just suffice on each link, and one short on each in turn. Before each of four
/// cabinets no service can be placed, and before 2 also service 0, if its stream gets to the root.
fn over_two_legs() -> Vec<Written> {
    const EMPTY: u64 = 4 * 4;
    let cost = 3 + 3 * (1 + 2 + 3 + 4);
    let road = |name, capacities, count| Written::refused(name, legs(capacities), count, &[3, 4]);
    vec![
        Written::planned("two legs", legs([5; 4]), [cost, EMPTY + 2], &[3, 4]),
        road("two legs, short up at 3", [4, 5, 5, 5], EMPTY),
        road("two legs, short up at 1", [5, 4, 5, 5], EMPTY),
        road("two legs, short down at 2", [5, 5, 4, 5], EMPTY + 2),
        road("two legs, short down at 4", [5, 5, 5, 4], EMPTY + 2),
    ]
}
