//! The sheets with barred pairs answer as is written down for them.

use second::barred::all;
use second::{check, group, plan, read};

#[test]
fn reader() {
    for case in all() {
        let pairs = read(&case.sheet).map(|sheet| sheet.barred);
        assert_eq!(pairs, case.read, "{}", case.name);
    }
}

#[test]
fn checks() {
    for case in all() {
        for (plan, answer) in &case.checks {
            assert_eq!(check(&case.sheet, plan), *answer, "{}: {plan:?}", case.name);
        }
    }
}

#[test]
fn planner() {
    for case in all() {
        for &(lent, [refusal, cost, count]) in &case.plans {
            let answer = plan(&case.sheet, lent.output, lent.costs, lent.choices);
            let given = [answer.refusal, answer.cost, answer.count];
            assert_eq!(given, [refusal, cost, count], "{}: {lent:?}", case.name);
            assert_eq!(answer.group, group(refusal), "{}", case.name);
            if let Some(best) = &answer.plan {
                assert_eq!(check(&case.sheet, best), Ok(cost), "{}", case.name);
            }
        }
    }
}
