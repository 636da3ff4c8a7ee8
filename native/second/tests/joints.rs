//! Random roads with joints, plans with a service on one, and edits that make joints.

use second::check::{check_sheet, only_joints};
use second::plan::solve;
use second::random::edits::Edits;
use second::random::joints::strayed;
use second::random::road::{Kind, of_kind};
use second::random::{Random, Size};
use std::collections::BTreeMap;

const SIZE: Size = Size {
    services: 4,
    cabinets: 6,
};

/// Joints at the root, in the middle, at leaves, everywhere and nowhere, and plans that only a joint
/// is wrong with.
#[test]
fn roads_with_joints() {
    let mut random = Random::new(18);
    let mut seen = [0; 6];
    for _ in 0..2000 {
        let sheet = of_kind(&mut random, Kind::Joints, SIZE);
        let s = sheet.cabinets.len();
        let joint = |c: usize| sheet.cabinets[c].is_joint();
        let inner = |p: usize| (1..s).any(|c| usize::from(sheet.cabinets[c].parent) == p);
        let strayed = strayed(&mut random, &sheet);
        let manners = [
            s > 1 && joint(0) && !(1..s).any(joint),
            (1..s).any(|c| joint(c) && inner(c)) && !joint(0),
            (1..s).any(|c| joint(c) && !inner(c)) && !joint(0),
            (0..s).all(joint),
            (0..s).filter(|&c| !joint(c)).count() == 1,
            strayed.iter().any(|plan| only_joints(&sheet, plan)),
        ];
        for (times, holds) in seen.iter_mut().zip(manners) {
            *times += usize::from(holds);
        }
    }
    assert!(seen.iter().all(|&times| times > 50), "{seen:?}");
}

/// A joint holds nothing, so that a plan that strays is refused by the check, whatever else is wrong.
#[test]
fn plans_with_a_service_on_a_joint() {
    let mut random = Random::new(19);
    let mut refusals: BTreeMap<u64, usize> = BTreeMap::new();
    for _ in 0..1000 {
        let sheet = of_kind(&mut random, Kind::Joints, SIZE);
        for plan in strayed(&mut random, &sheet) {
            let refusal = check_sheet(&sheet, &plan).err().unwrap_or(0);
            *refusals.entry(refusal).or_default() += 1;
        }
    }
    let [barred, stray, past] = [20, 15, 14].map(|n| refusals.get(&n).copied().unwrap_or(0));
    assert!(barred > 50 && stray > 200 && past > 100, "{refusals:?}");
}

/// After a plan a cabinet in use is made a joint, so that the plan is refused with 15, and often is a
/// cabinet again.
#[test]
fn edits_that_make_joints() {
    let mut random = Random::new(20);
    let (mut in_use, mut back) = (0, 0);
    for _ in 0..500 {
        let sheet = of_kind(&mut random, Kind::Joints, SIZE);
        let mut edits = Edits::new(&sheet);
        let mut joint = None;
        for _ in 0..4 {
            let plan = solve(edits.sheet()).plan;
            let cabinet = edits.after(&mut random, plan.as_deref());
            let used = plan.filter(|plan| plan.contains(&(cabinet as u16)));
            assert!(!(edits.made_joint() && edits.made_cabinet()));
            back += usize::from(edits.made_cabinet() && joint == Some(cabinet));
            joint = edits.made_joint().then_some(cabinet);
            if let (Some(_), Some(plan)) = (joint, used) {
                assert_eq!(check_sheet(edits.sheet(), &plan), Err(15));
                in_use += 1;
            }
        }
    }
    assert!(in_use > 100 && back > 50, "{in_use} in use, {back} back");
}
