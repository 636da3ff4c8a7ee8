//! Calls on spans: which of several refusals is given, and what is reckoned in more than 64 bits.

use second::build::tight;
use second::measured::{m, m_records};
use second::random::road::road;
use second::random::sharing::{other_road, side_by_side};
use second::random::span::span;
use second::random::{Lent, Random, Size};
use second::span::{accepted, lent_span};
use second::{Sheet, Span, Tables, edit_span, keep, keep_span, plan, plan_span, spanned};

const MOST: usize = usize::MAX;

/// Two places for M, and tables of these lengths.
fn tables(costs: usize, choices: usize) -> Lent {
    Lent {
        output: 2,
        costs,
        choices,
    }
}

/// The refusal of a planning call on M, which needs 12 entries. The other calls give the same.
fn refusal(lent: Lent, first: usize, number: usize) -> u64 {
    let span = Span { first, number };
    let answer = plan_span(&m(), lent, span).0;
    assert_eq!(keep_span(&m(), lent, span).0, answer);
    assert_eq!(edit_span(&m(), 2, lent, span).0, answer);
    assert_eq!(answer.group, if answer.refusal == 0 { 0 } else { 2 });
    answer.refusal
}

#[test]
fn eleven_and_twenty_four() {
    for (costs, choices, first, number, right) in [
        (12, 12, 0, 12, 0),
        (20, 30, 8, 12, 0),
        (30, 20, 8, 12, 0),
        (30, 30, 3, 20, 0),
        (30, 30, 8, 11, 11),
        (30, 30, 30, 0, 11),
        (30, 40, 30, 0, 11),
        (30, 30, 31, 0, 24),
        (30, 30, 19, 12, 24),
        (19, 20, 8, 12, 24),
        (20, 19, 8, 12, 24),
        (0, 20, 8, 12, 24),
        (30, 30, 20, 11, 24),
    ] {
        assert_eq!(refusal(tables(costs, choices), first, number), right);
    }
}

#[test]
fn sums_past_64_bits() {
    for (first, number) in [
        (MOST, 0),
        (MOST, 1),
        (MOST, 13),
        (0, MOST),
        (1, MOST),
        (13, MOST),
        (MOST, MOST),
        (MOST - 11, 12),
        (MOST - 11, 30),
        (1 << 63, 1 << 63),
        (1 << 32, 12),
        (0, (1 << 32) + 12),
    ] {
        assert_eq!(refusal(tables(30, 30), first, number), 24);
    }
    let span = Span {
        first: MOST,
        number: MOST,
    };
    assert_eq!(span.end(), 2 * u128::from(u64::MAX));
}

/// 24 after 10 and the reader's refusals, before 14 and 12.
#[test]
fn order() {
    let past = Span {
        first: 20,
        number: 12,
    };
    let short = Lent {
        output: 1,
        ..tables(30, 30)
    };
    assert_eq!(plan_span(&m(), short, past).0.refusal, 10);
    assert_eq!(
        keep_span(&m()[..67], tables(30, 30), past),
        (plan(&m()[..67], 2, 0, 0), Tables::default())
    );
    assert_eq!(edit_span(&m(), 3, tables(30, 30), past).0.refusal, 24);
    assert_eq!(edit_span(&m(), 3, tables(32, 32), past).0.refusal, 14);
    assert_eq!(
        edit_span(&m(), 3, tables(30, 30), Span::default())
            .0
            .refusal,
        11
    );
    let mut shut = m_records();
    shut.cabinets.iter_mut().for_each(|c| c.capacity = 0);
    assert_eq!(plan_span(&tight(&shut), tables(30, 30), past).0.refusal, 24);
    assert_eq!(plan_span(&tight(&shut), tables(32, 32), past).0.refusal, 12);
}

/// What a call answers and leaves does not depend on where its span lies; a planning call leaves 0.
#[test]
fn entries_of_the_span() {
    let whole = keep(&m(), 2, 12, 12);
    for first in [0, 1, 7] {
        for number in [12, 13] {
            let span = Span { first, number };
            assert_eq!(keep_span(&m(), tables(20, 21), span), whole);
            assert_eq!(edit_span(&m(), 1, tables(20, 21), span), whole);
            let (answer, left) = plan_span(&m(), tables(20, 21), span);
            assert_eq!((answer, left.costs), (whole.0.clone(), vec![0; 12]));
            assert_eq!(left.choices, vec![0; 12]);
        }
    }
    assert_eq!(
        keep_span(&m(), tables(20, 21), Span::default()).1,
        Tables::default()
    );
}

/// A call without a span is one on all that both tables have.
#[test]
fn the_whole_of_the_shorter_table() {
    for costs in 10..14 {
        for choices in 10..14 {
            let lent = tables(costs, choices);
            let right = plan(&m(), 2, costs, choices);
            assert_eq!(plan_span(&m(), lent, Span::whole(lent)).0, right);
        }
    }
}

/// The spans written down, in all three calls.
#[test]
fn written_down() {
    for case in spanned::all() {
        let (sheet, lent, span) = (&case.sheet, case.lent, case.span);
        let planned = plan_span(sheet, lent, span).0.refusal;
        assert_eq!(planned, case.refusal, "{}", case.name);
        let kept = keep_span(sheet, lent, span).0.refusal;
        assert_eq!(kept, case.refusal, "{}", case.name);
        let edited = edit_span(sheet, case.cabinet, lent, span).0.refusal;
        assert_eq!(edited, case.edit_refusal, "{}", case.name);
    }
}

const SIZE: Size = Size {
    services: 3,
    cabinets: 5,
};

/// Of the spans drawn, many are refused with each number and many not.
#[test]
fn spans_drawn() {
    let mut random = Random::new(41);
    let mut times = [0; 25];
    for _ in 0..3000 {
        let (_, sheet) = road(&mut random, SIZE);
        let (lent, span) = span(&mut random, sheet.services.len(), sheet.entries());
        let refusal = lent_span(&sheet, lent, span);
        assert_eq!(
            accepted(&tight(&sheet), None, lent, span)
                .err()
                .unwrap_or(0),
            refusal
        );
        times[refusal as usize] += 1;
    }
    assert!(times[0] > 600, "{times:?}");
    assert!(
        [10, 11, 24].iter().all(|&refusal| times[refusal] > 200),
        "{times:?}"
    );
}

/// Two roads of different sizes get spans of their own, each long enough.
#[test]
fn two_roads() {
    let mut random = Random::new(42);
    for _ in 0..1000 {
        let (_, sheet) = road(&mut random, SIZE);
        let other = other_road(&mut random, &sheet);
        assert_ne!(sheet.services.len(), other.services.len());
        assert_ne!(sheet.cabinets.len(), other.cabinets.len());
        let roads = [&sheet, &other];
        let entries = roads.map(Sheet::entries);
        let drawn = side_by_side(&mut random, entries);
        for (road, span) in roads.into_iter().zip(drawn.spans) {
            let lent = Lent {
                output: road.services.len(),
                costs: drawn.costs,
                choices: drawn.choices,
            };
            assert_eq!(lent_span(road, lent, span), 0);
        }
        let [one, two] = drawn.spans;
        assert!(one.end() <= two.first as u128 || two.end() <= one.first as u128);
    }
}
