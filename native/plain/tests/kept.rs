//! The tables by rows are those by definition, and edits of kept tables leave what keeping leaves.

use plain::{Rules, answer, edit, figures, first_plan, tables};
use second::keep::{NONE, placings};
use second::measured::m_records;
use second::plan::{MOST_PLANS, plans, solve};
use second::random::edits::Edits;
use second::random::road::{Kind, of_kind, road};
use second::random::{Random, Size};
use second::{Sheet, framed, jointed, tied};

const SIZE: Size = Size {
    services: 4,
    cabinets: 6,
};

/// The tables of both, which must be the same; and the answer that they give.
fn agree(sheet: &Sheet) {
    let right = second::keep::tables(sheet);
    assert_eq!(tables(sheet), right, "{sheet:?}");
    let mut solved = solve(sheet);
    solved.ties = 0;
    assert_eq!(answer(sheet, &right), solved, "{sheet:?}");
}

/// By hand: alone, service 0 is cheapest on 1 for 2 and the stream of 3 up at 2, and service 1 there
/// for 2 and the stream down at 1; both cost 15 as (0, 1), which comes before (1, 2).
#[test]
fn road_m() {
    let right = second::keep::tables(&m_records());
    assert_eq!(right.costs, [0, 8, 5, 15, 0, 2, 2, NONE, 0, 4, 4, NONE]);
    assert_eq!(right.choices, [0, 0, 0, 0, 9, 0, 0, 1, 9, 1, 2, 3]);
    agree(&m_records());
}

#[test]
fn random_roads() {
    let mut random = Random::new(21);
    let (mut unplaced, mut tied) = (0, 0);
    for _ in 0..1500 {
        let (_, sheet) = road(&mut random, SIZE);
        if placings(&sheet) > 20_000 {
            continue;
        }
        agree(&sheet);
        let solved = solve(&sheet);
        unplaced += usize::from(solved.plan.is_none());
        tied += usize::from(solved.ties > 0);
    }
    assert!(unplaced > 100 && tied > 200, "{unplaced}, {tied}");
}

#[test]
fn written_down() {
    let tied = tied::all().into_iter().map(|road| road.sheet);
    let others = framed::all().into_iter().chain(jointed::all());
    for sheet in tied.chain(others.map(|road| road.sheet)) {
        if placings(&sheet) <= 1_000_000 && plans(&sheet) <= MOST_PLANS {
            agree(&sheet);
        }
    }
}

/// On large roads the plan by the choices is the first one, found by least costs alone, and the
/// count is the planner's; after an edit too.
#[test]
fn large_roads() {
    let mut random = Random::new(23);
    let mut planned = 0;
    for _ in 0..12 {
        let sheet = of_kind(&mut random, Kind::Large, SIZE);
        let mut edits = Edits::new(&sheet);
        let mut kept = tables(&sheet);
        let cabinet = edits.next(&mut random);
        let edited = edit(edits.sheet(), cabinet, &mut kept);
        for (sheet, given) in [
            (&sheet, answer(&sheet, &tables(&sheet))),
            (edits.sheet(), edited.answer),
        ] {
            let (cost, count) = figures(sheet, Rules::ALL);
            assert_eq!((given.cost, given.count), (cost.unwrap_or(0), count));
            assert_eq!(given.plan, first_plan(sheet));
            planned += usize::from(cost.is_some());
        }
        assert_eq!(kept, tables(edits.sheet()));
    }
    assert!(planned > 6, "{planned} plans");
}

#[test]
fn lists_of_edits() {
    let mut random = Random::new(22);
    let (mut planned, mut refused, mut again) = (0, 0, 0);
    let (mut joints, mut boxes) = (0, 0);
    for _ in 0..1500 {
        let (_, sheet) = road(&mut random, SIZE);
        let mut edits = Edits::new(&sheet);
        let mut kept = tables(&sheet);
        let mut before = 0;
        let mut plan = answer(&sheet, &kept).plan;
        for _ in 0..5 {
            let cabinet = edits.after(&mut random, plan.as_deref());
            let edited = edit(edits.sheet(), cabinet, &mut kept);
            assert!(!edited.open);
            assert_eq!(kept, tables(edits.sheet()));
            assert_eq!(edited.answer, answer(edits.sheet(), &kept));
            let refusal = edited.answer.refusal;
            planned += usize::from(refusal == 0);
            refused += usize::from(refusal == 12);
            again += usize::from(refusal == 0 && before == 12);
            joints += usize::from(edits.made_joint());
            boxes += usize::from(edits.made_cabinet());
            assert!(refusal == 0 || refusal == 12);
            before = refusal;
            plan = edited.answer.plan;
        }
    }
    assert!(
        planned > 2000 && refused > 1000 && again > 200,
        "{planned} {refused} {again}"
    );
    assert!(joints > 400 && boxes > 400, "{joints} {boxes}");
}
