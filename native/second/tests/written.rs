//! The roads that are written down answer as is written down for them.

use second::plan::solve;
use second::written::Written;
use second::{check, framed, group, jointed};

fn all() -> Vec<Written> {
    let mut all = framed::all();
    all.extend(jointed::all());
    all
}

#[test]
fn planner() {
    for road in all() {
        let answer = solve(&road.sheet);
        let given = [answer.refusal, answer.cost, answer.count];
        assert_eq!(given, road.answer, "{}", road.name);
        assert_eq!(answer.group, group(answer.refusal), "{}", road.name);
        assert_eq!(answer.plan.unwrap_or_default(), road.plan, "{}", road.name);
    }
}

#[test]
fn checks() {
    for road in all() {
        let case = road.case();
        for (plan, answer) in &road.checks {
            assert_eq!(check(&case.sheet, plan), *answer, "{}: {plan:?}", road.name);
        }
    }
}

/// A road has a name of its own, by which a failure tells which one it is.
#[test]
fn names() {
    let all = all();
    let mut names: Vec<&str> = all.iter().map(|road| road.name).collect();
    names.sort();
    names.dedup();
    assert_eq!(names.len(), all.len());
}
