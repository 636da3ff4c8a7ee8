//! The calls on spans of the tables: road M beside a small one in the same tables, and refusals.

mod roads;

use gazrieksne::{Group, Planned, Refusal, Span};
use roads::{CHOICES, COSTS, bytes, m, m_edited};

/// One service, a root without room and a cabinet of this price, which has room for it.
fn small(price: u16) -> Vec<u8> {
    bytes(&[
        1, 2, 0, 16, 18, 46, 46, 0, 1, 65535, 0, 9, 0, 0, 0, 0, 0, 1, price, 0, 0, 0, 0,
    ])
}

/// M's span in tables of 20 entries, and right behind it the other road's.
const OF_M: Span = Span {
    first: 2,
    number: 13,
};
const OF_SMALL: Span = Span {
    first: 15,
    number: 4,
};

/// An answer with this cost and count.
fn found(cost: u64, count: u64) -> Result<Planned, Refusal> {
    Ok(Planned { cost, count })
}

/// Tables of 20 entries hold these ones at M's span and at the other's, and 9 elsewhere.
fn hold(costs: &[u64], choices: &[u16], of_m: (&[u64], &[u16]), of_small: (&[u64], &[u16])) {
    let nine = [9_u64].as_slice();
    let right = [&[9; 2], of_m.0, nine, of_small.0, nine].concat();
    assert_eq!(costs, right);
    let nine = [9_u16].as_slice();
    let right = [&[9; 2], of_m.1, nine, of_small.1, nine].concat();
    assert_eq!(choices, right);
}

/// The small road's cabinet of price 3 is all there is, and only what does not stay on the root is
/// weighed. An edit makes it 7.
#[test]
fn two_roads_in_the_same_tables() {
    let (mut output, mut other, mut costs, mut choices) = ([9; 3], [9; 2], [9; 20], [9; 20]);
    assert_eq!(OF_M.followed_by(4), Some(OF_SMALL));
    let kept = gazrieksne::keep_span(&m(), &mut output, &mut costs, &mut choices, OF_M);
    assert_eq!((kept, output), (found(15, 18), [0, 1, 9]));
    hold(&costs, &choices, (&COSTS, &CHOICES), (&[9; 4], &[9; 4]));
    let kept = gazrieksne::keep_span(&small(3), &mut other, &mut costs, &mut choices, OF_SMALL);
    assert_eq!((kept, other), (found(3, 2), [1, 9]));
    let of_small = (&[0, 3, 0, 3][..], &[0, 0, 2, 0][..]);
    hold(&costs, &choices, (&COSTS, &CHOICES), of_small);
    // Cabinet 2 of M gets dearer and cheap again, and the small road's in between.
    let edited = gazrieksne::edit_span(
        &m_edited(4, 3),
        2,
        &mut output,
        &mut costs,
        &mut choices,
        OF_M,
    );
    assert_eq!((edited, output), (found(15, 18), [0, 1, 9]));
    let edited =
        gazrieksne::edit_span(&small(7), 1, &mut other, &mut costs, &mut choices, OF_SMALL);
    assert_eq!((edited, other), (found(7, 2), [1, 9]));
    let edited = gazrieksne::edit_span(&m(), 2, &mut output, &mut costs, &mut choices, OF_M);
    assert_eq!((edited, output), (found(15, 18), [0, 1, 9]));
    let of_small = (&[0, 7, 0, 7][..], &[0, 0, 2, 0][..]);
    hold(&costs, &choices, (&COSTS, &CHOICES), of_small);
    let planned = gazrieksne::plan_span(&m(), &mut output, &mut costs, &mut choices, OF_M);
    assert_eq!((planned, output), (found(15, 18), [0, 1, 9]));
    hold(&costs, &choices, (&[0; 12], &[0; 12]), of_small);
}

/// The number and the group of the refusal that all three calls give for M and a span of tables of
/// these lengths; nothing is written.
fn refused(span: Span, costs: usize, choices: usize, places: usize) -> (u64, Group) {
    let (mut output, mut costs, mut choices) = (vec![9; places], vec![9; costs], vec![9; choices]);
    let planned = gazrieksne::plan_span(&m(), &mut output, &mut costs, &mut choices, span);
    let kept = gazrieksne::keep_span(&m(), &mut output, &mut costs, &mut choices, span);
    let edited = gazrieksne::edit_span(&m(), 3, &mut output, &mut costs, &mut choices, span);
    assert_eq!((planned, kept), (edited, edited));
    assert!(costs.iter().all(|&entry| entry == 9) && choices.iter().all(|&entry| entry == 9));
    assert!(output.iter().all(|&place| place == 9));
    let refusal = edited.unwrap_err();
    assert_eq!(refusal.count, 0);
    (refusal.number, refusal.group)
}

/// 24 comes after 10 and before 11 and 14, and the sum is never taken in 64 bits.
#[test]
fn spans_refused() {
    let span = |first, number| Span { first, number };
    for (first, number, costs, choices) in [
        (9, 12, 20, 30),
        (9, 12, 30, 20),
        (21, 0, 20, 20),
        (usize::MAX, 0, 20, 20),
        (usize::MAX, usize::MAX, 20, 20),
        (1, usize::MAX, 20, 20),
        (usize::MAX - 11, 14, 20, 20),
    ] {
        let past = span(first, number);
        assert_eq!(refused(past, costs, choices, 2), (24, Group::Lender));
        assert_eq!(refused(past, costs, choices, 1), (10, Group::Lender));
        assert_eq!(past.of(&[9; 20][..]), None);
    }
    for (first, number) in [(20, 0), (0, 11), (9, 11)] {
        assert_eq!(refused(span(first, number), 20, 30, 2), (11, Group::Lender));
    }
    let mut tables = ([9; 20], [9; 20]);
    let past = gazrieksne::plan_span(&m(), &mut [9; 2], &mut tables.0, &mut tables.1, span(9, 12));
    let told = past.unwrap_err().to_string();
    assert!(told.contains("lend longer tables"), "{told}");
}

/// A call without a span is one on all that both tables have.
#[test]
fn the_whole_of_the_shorter_table() {
    for (costs, choices) in [(12, 14), (14, 12), (11, 14), (14, 11)] {
        let (mut one, mut two) = ([9; 2], [9; 2]);
        let mut tables = (vec![9; costs], vec![9; choices]);
        let mut others = tables.clone();
        let whole = Span::whole(costs, choices);
        assert_eq!(whole, Span::from(0..costs.min(choices)));
        let planned = gazrieksne::plan(&m(), &mut one, &mut tables.0, &mut tables.1);
        let in_span = gazrieksne::plan_span(&m(), &mut two, &mut others.0, &mut others.1, whole);
        assert_eq!((planned, one, &tables), (in_span, two, &others));
        let kept = gazrieksne::keep(&m(), &mut one, &mut tables.0, &mut tables.1);
        let in_span = gazrieksne::keep_span(&m(), &mut two, &mut others.0, &mut others.1, whole);
        assert_eq!((kept, one, &tables), (in_span, two, &others));
        let sheet = m_edited(0, 2);
        let edited = gazrieksne::edit(&sheet, 0, &mut one, &mut tables.0, &mut tables.1);
        let in_span =
            gazrieksne::edit_span(&sheet, 0, &mut two, &mut others.0, &mut others.1, whole);
        assert_eq!((edited, one, &tables), (in_span, two, &others));
    }
}

#[test]
fn ends() {
    assert_eq!(OF_M.end(), Some(15));
    assert_eq!(OF_M.of(&[7; 15][..]), Some(&[7; 13][..]));
    assert_eq!(OF_M.of(&[7; 14][..]), None);
    let far = Span {
        first: 1,
        number: usize::MAX,
    };
    assert_eq!((far.end(), far.followed_by(0)), (None, None));
}
