//! Of all cheapest plans the planner gives the first.

use second::check::check_sheet;
use second::plan::{advance, solve};
use second::random::{Random, Size, road::road};
use second::{Sheet, check, tied};

/// All plans of a road, service 0 being the fastest to change.
fn all_plans(sheet: &Sheet) -> Vec<Vec<u16>> {
    let s = sheet.cabinets.len();
    let number = s.pow(sheet.services.len() as u32);
    let place = |plan: usize, service: usize| (plan / s.pow(service as u32) % s) as u16;
    let plan = |plan| (0..sheet.services.len()).map(|i| place(plan, i)).collect();
    (0..number).map(plan).collect()
}

/// All valid plans with their costs, the cheapest first and those of one cost in order.
fn ranking(sheet: &Sheet) -> Vec<(u64, Vec<u16>)> {
    let plans = all_plans(sheet).into_iter();
    let valid = plans.filter_map(|plan| Some((check_sheet(sheet, &plan).ok()?, plan)));
    let mut ranking: Vec<(u64, Vec<u16>)> = valid.collect();
    ranking.sort();
    ranking
}

#[test]
fn plans_are_tried_in_order() {
    let mut plan = [0; 2];
    let mut tried = vec![plan];
    while advance(&mut plan, 3) {
        tried.push(plan);
    }
    let right = [0, 1, 2].map(|a| [0, 1, 2].map(|b| [a, b])).concat();
    assert_eq!(tried, right);
}

#[test]
fn written_down() {
    for road in tied::all() {
        let answer = solve(&road.sheet);
        let given = (answer.cost, answer.plan);
        assert_eq!(given, (road.cost, Some(road.plan)), "{}", road.name);
        assert!(answer.ties > 0, "{}", road.name);
    }
}

#[test]
fn written_down_with_valid_plans() {
    for road in tied::all() {
        let case = road.case();
        assert_eq!(check(&case.sheet, &road.plan), Ok(road.cost));
    }
}

#[test]
fn first_in_the_ranking_of_random_roads() {
    let size = Size {
        services: 4,
        cabinets: 5,
    };
    let mut random = Random::new(5);
    let mut with_ties = 0;
    for _ in 0..2000 {
        let (kind, sheet) = road(&mut random, size);
        let answer = solve(&sheet);
        let ranking = ranking(&sheet);
        let first = ranking.first();
        let given = answer.plan.map(|plan| (answer.cost, plan));
        assert_eq!(given.as_ref(), first, "{kind:?}: {sheet:?}");
        let same = ranking.iter().filter(|(cost, _)| *cost == answer.cost);
        let ties = same.count().saturating_sub(1) as u64;
        assert_eq!(answer.ties, ties, "{kind:?}: {sheet:?}");
        with_ties += usize::from(ties > 0);
    }
    assert!(with_ties > 300, "{with_ties} roads with ties");
}
