//! The planner by rows answers as the second planner does.

use plain::{Rules, figures};
use second::measured::{m_records, z};
use second::random::{Case, Random, Size, case};
use second::{Cabinet, barred, check, framed, jointed, plan, read};

/// The answers agree for every length lent, but for which of the cheapest plans is written.
fn agrees(case: &Case) {
    for lent in &case.lent {
        let mut output = vec![7; lent.output];
        let mut costs = vec![7; lent.costs];
        let mut choices = vec![7; lent.choices];
        let mut right = plan(&case.sheet, lent.output, lent.costs, lent.choices);
        let answer = plain::plan(&case.sheet, &mut output, &mut costs, &mut choices);
        if let Some(best) = &answer.plan {
            assert_eq!(check(&case.sheet, best), Ok(answer.cost));
        }
        assert_eq!(answer.plan.is_some(), right.plan.is_some());
        right.plan = answer.plan.clone();
        right.ties = 0;
        assert_eq!(answer, right, "{:?}", case.origin);
    }
}

#[test]
fn random_cases() {
    let size = Size {
        services: 5,
        cabinets: 7,
    };
    let mut random = Random::new(3);
    let (mut with_bars, mut framed) = (0, 0);
    for _ in 0..3000 {
        let case = case(&mut random, size);
        agrees(&case);
        let Ok(sheet) = read(&case.sheet) else {
            continue;
        };
        with_bars += usize::from(!sheet.barred.is_empty());
        framed += usize::from(figures(&sheet, Rules::UNFRAMED) != figures(&sheet, Rules::ALL));
    }
    assert!(with_bars > 500, "{with_bars} roads with barred pairs");
    assert!(framed > 80, "{framed} roads that framing matters for");
}

#[test]
fn written_down() {
    for directed in barred::all() {
        agrees(&directed.case());
    }
    for road in framed::all().into_iter().chain(jointed::all()) {
        agrees(&road.case());
    }
}

/// If there were no joints, the figures of most roads that are written down for them would be
/// others; those of all that have none are the same.
#[test]
fn without_joints() {
    let mut others = 0;
    for road in jointed::all() {
        let changed =
            figures(&road.sheet, Rules::WITHOUT_JOINTS) != figures(&road.sheet, Rules::ALL);
        let joint = road.sheet.cabinets.iter().any(Cabinet::is_joint);
        assert!(joint || !changed, "{}", road.name);
        others += usize::from(changed);
    }
    assert!(others >= 40, "{others} roads");
}

/// Z by hand: on the root the third service would cost 3 less. On it no service or that one could be
/// placed before 1; before 2 it could be alone, too.
#[test]
fn z_without_joints() {
    assert_eq!(figures(&z(), Rules::ALL), (Some(15), 28));
    assert_eq!(figures(&z(), Rules::WITHOUT_JOINTS), (Some(12), 36));
}

#[test]
fn m0_with_more_and_less_framing() {
    let mut sheet = m_records();
    sheet.cabinets[0].capacity = 0;
    for (up, framing, right) in [
        (3, 0, (Some(15), 12)),
        (2, 0, (None, 10)),
        (4, 1, (Some(15), 12)),
        (3, 1, (None, 10)),
        (5, 2, (Some(15), 12)),
        (4, 2, (None, 10)),
        (6, 3, (Some(15), 12)),
        (5, 3, (None, 10)),
    ] {
        sheet.cabinets[1].up_capacity = up;
        let rules = Rules {
            framing,
            ..Rules::ALL
        };
        assert_eq!(figures(&sheet, rules), right, "{up}, {framing}");
    }
}
