//! Kept tables of small roads, and lists of edits that keep their rule.

use second::build::tight;
use second::keep::NONE;
use second::limits::NO_PARENT;
use second::measured::{m, m_barred, m_records};
use second::plan::solve;
use second::random::breach::{Breach, broken, spoil};
use second::random::edits::Edits;
use second::random::road::road;
use second::random::{Random, Size};
use second::{Cabinet, Sheet, Tables, keep, plan, read};

const SIZE: Size = Size {
    services: 3,
    cabinets: 5,
};

#[test]
fn answers_are_the_planners() {
    for (output, costs, choices) in [(2, 12, 12), (1, 12, 12), (2, 11, 12), (2, 12, 11)] {
        let (answer, tables) = keep(&m(), output, costs, choices);
        assert_eq!(answer, plan(&m(), output, costs, choices));
        assert_eq!(tables.costs.is_empty(), answer.refusal != 0);
    }
    assert_eq!(keep(&m()[..67], 2, 12, 12).1, Tables::default());
}

/// Nothing can be placed but the empty set where all pairs of service 0 are barred and service 1 is
/// too large for any cabinet; 12 leaves tables too.
#[test]
fn nothing_fits() {
    let mut sheet = m_barred(&[[0, 0], [0, 1], [0, 2]]);
    sheet.services[1] = 9;
    let (answer, tables) = keep(&tight(&sheet), 2, 12, 12);
    assert_eq!((answer.refusal, answer.count), (12, 8));
    assert_eq!(tables.costs, [[0, NONE, NONE, NONE]; 3].concat());
    assert_eq!(tables.choices, [0, 0, 0, 0, 4, 0, 0, 0, 4, 0, 0, 0]);
}

/// Without services there is a count of one split for each cabinet; without children none.
#[test]
fn no_service_and_one_cabinet() {
    let mut sheet = m_records();
    sheet.services.clear();
    sheet.streams.clear();
    let (answer, tables) = keep(&tight(&sheet), 0, 3, 3);
    assert_eq!((answer.cost, answer.count), (0, 2));
    assert_eq!((tables.costs, tables.choices), (vec![0; 3], vec![0, 1, 1]));
    let alone = Sheet {
        services: vec![2, 3],
        cabinets: vec![Cabinet::from_words([NO_PARENT, 3, 7, 0, 0, 0, 0])],
        ..Sheet::default()
    };
    let tables = keep(&tight(&alone), 2, 4, 4).1;
    let right = (vec![0, 14, 21, NONE], vec![0; 4]);
    assert_eq!((tables.costs, tables.choices), right);
}

/// A joint has a cost for the empty set alone, and for what can be under it. Leaf 1 is one; the root is
/// one at first, and then holds the service of demand 0, which is on leaf 2 else.
#[test]
fn rows_of_joints() {
    let cabinet = |parent, capacity| Cabinet::from_words([parent, capacity, 5, 0, 0, 0, 0]);
    let star = |root, two| Sheet {
        services: vec![0],
        cabinets: vec![cabinet(NO_PARENT, root), cabinet(0, 0), cabinet(0, two)],
        ..Sheet::default()
    };
    let (shut, open) = ([0, NONE], [0, 0]);
    for (root, two, costs, choices) in [
        (0, 1, [open, shut, open], [[0, 0], [2, 0], [2, 0]]),
        (1, 1, [open, shut, open], [[0, 0], [3, 1], [3, 1]]),
        (1, 0, [open, shut, shut], [[0, 0], [3, 1], [3, 1]]),
        (0, 0, [shut, shut, shut], [[0, 0], [2, 0], [2, 0]]),
    ] {
        let (answer, tables) = keep(&tight(&star(root, two)), 1, 6, 6);
        assert_eq!(answer.refusal, if root + two == 0 { 12 } else { 0 });
        assert_eq!(tables.costs, costs.concat());
        assert_eq!(tables.choices, choices.concat());
    }
}

/// The counts sum up to the planner's, and the root's last entry is its cost.
#[test]
fn counts_and_costs() {
    let mut random = Random::new(31);
    for _ in 0..300 {
        let (_, sheet) = road(&mut random, SIZE);
        if second::keep::placings(&sheet) > 20_000 {
            continue;
        }
        let tables = second::keep::tables(&sheet);
        let right = solve(&sheet);
        let row = 1 << sheet.services.len();
        let counts = tables.choices.iter().step_by(row);
        assert_eq!(
            counts.map(|&count| u64::from(count)).sum::<u64>(),
            right.count
        );
        let cost = if right.plan.is_some() {
            right.cost
        } else {
            NONE
        };
        assert_eq!(tables.costs[row - 1], cost);
    }
}

/// An edit changes the amounts of one cabinet, or nothing, and the reader accepts its sheet.
#[test]
fn edits_keep_their_rule() {
    let mut random = Random::new(32);
    let (mut unchanged, mut back) = (0, 0);
    for _ in 0..400 {
        let (_, sheet) = road(&mut random, SIZE);
        let mut edits = Edits::new(&sheet);
        for step in 0..5 {
            let mut before = edits.sheet().clone();
            let cabinet = match step {
                4 => edits.back(&mut random),
                _ => edits.next(&mut random),
            };
            let after = edits.sheet().clone();
            assert_eq!(read(&tight(&after)), Ok(after.clone()));
            unchanged += usize::from(before == after);
            back += usize::from(step == 4 && after.cabinets[cabinet] == sheet.cabinets[cabinet]);
            let parent = before.cabinets[cabinet].parent;
            assert_eq!(after.cabinets[cabinet].parent, parent);
            before.cabinets[cabinet] = after.cabinets[cabinet];
            assert_eq!(before, after);
        }
    }
    assert!(unchanged > 200 && unchanged < 1200, "{unchanged} unchanged");
    assert_eq!(back, 400);
}

/// A breach names a cabinet of a sheet that the reader accepts, and breaks what it says.
#[test]
fn breaches() {
    let mut random = Random::new(33);
    for round in 0..900 {
        let breach = Breach::ALL[round % Breach::ALL.len()];
        let (_, sheet) = road(&mut random, SIZE);
        let made = broken(&mut random, breach, &sheet);
        let (kept, edited) = (&made.kept, &made.edited);
        assert!(made.cabinet < edited.cabinets.len());
        for sheet in [kept, edited] {
            assert_eq!(read(&tight(sheet)).as_ref(), Ok(sheet));
        }
        let parents = |sheet: &Sheet| -> Vec<u16> {
            sheet
                .cabinets
                .iter()
                .map(|cabinet| cabinet.parent)
                .collect()
        };
        let moved = breach == Breach::Parent && edited.cabinets.len() > 2;
        if breach != Breach::OtherRoad && breach != Breach::OtherSizes {
            assert_eq!(parents(kept) != parents(edited), moved, "{breach:?}");
        }
        let row = 1 << kept.services.len();
        let mut tables = Tables {
            costs: vec![3; kept.cabinets.len() * row],
            choices: vec![3; kept.cabinets.len() * row],
        };
        let before = tables.clone();
        spoil(&mut random, breach, row, &mut tables);
        let spoilt = [
            Breach::Noise,
            Breach::Ones,
            Breach::Zeros,
            Breach::ChoiceRow,
            Breach::CostRow,
        ];
        assert_eq!(tables != before, spoilt.contains(&breach), "{breach:?}");
    }
}
