//! What a joint is, and what it alone decides.

use second::Cabinet;
use second::check::{check_sheet, only_joints};
use second::jointed::all;
use second::measured::{m_records, z};
use second::plan::solve;
use second::written::Written;

#[test]
fn what_a_joint_is() {
    let cabinet = |capacity| Cabinet::from_words([0, capacity, 0, 0, 0, 0, 0]);
    assert!(cabinet(0).is_joint());
    assert!(!cabinet(1).is_joint());
    assert!(Cabinet::from_words([0, 0, 9, 9, 9, 9, 9]).is_joint());
}

/// Most of them have a joint; the others have a cabinet in its place.
#[test]
fn enough_of_them() {
    let all = all();
    let joint = |road: &&Written| road.sheet.cabinets.iter().any(Cabinet::is_joint);
    let times = all.iter().filter(joint).count();
    assert!(times >= 40, "{times} of {} roads", all.len());
}

/// A service of demand above 0 overfills a joint, so that 15 is not for the joint alone.
#[test]
fn for_a_joint_alone() {
    let sheet = z();
    assert!(only_joints(&sheet, &[1, 2, 0]));
    assert!(!only_joints(&sheet, &[0, 2, 1]));
    assert!(!only_joints(&sheet, &[1, 1, 0]));
    assert!(!only_joints(&sheet, &[1, 2, 2]));
    assert!(!only_joints(&sheet, &[1, 2, 1]));
    let mut lone = 0;
    for road in all() {
        for (plan, answer) in &road.checks {
            let idle = |&(_, demand): &(&u16, &u16)| *demand == 0;
            let mut placed = plan.iter().zip(&road.sheet.services);
            let alone = only_joints(&road.sheet, plan);
            assert!(!alone || *answer == Err(15));
            assert!(!alone || placed.any(|place| idle(&place)));
            lone += usize::from(alone);
        }
    }
    assert!(lone >= 60, "{lone} plans refused for a joint alone");
}

/// A cabinet is a joint after an edit to capacity 0, and none after one back.
#[test]
fn made_a_joint_and_back() {
    let mut sheet = m_records();
    sheet.services[1] = 0;
    let before = solve(&sheet);
    let plan = before.plan.clone().unwrap_or_default();
    assert_eq!((before.cost, plan.as_slice()), (2, &[1, 1][..]));
    sheet.cabinets[1].capacity = 0;
    assert_eq!(check_sheet(&sheet, &plan), Err(15));
    let after = solve(&sheet);
    assert_eq!((after.cost, after.plan), (4, Some(vec![2, 2])));
    sheet.cabinets[1].capacity = 3;
    assert_eq!(solve(&sheet), before);
}
