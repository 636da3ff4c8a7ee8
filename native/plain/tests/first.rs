//! The first plan by least costs is the second planner's.

use plain::first_plan;
use second::plan::solve;
use second::random::road::{Kind, of_kind, road};
use second::random::{Random, Size};
use second::{check, framed, jointed, tied};

#[test]
fn written_down() {
    for road in tied::all() {
        assert_eq!(first_plan(&road.sheet), Some(road.plan), "{}", road.name);
    }
    for road in framed::all().into_iter().chain(jointed::all()) {
        let plan = (road.answer[0] == 0).then_some(road.plan);
        assert_eq!(first_plan(&road.sheet), plan, "{}", road.name);
    }
}

#[test]
fn random_roads() {
    let size = Size {
        services: 5,
        cabinets: 7,
    };
    let mut random = Random::new(8);
    let mut with_ties = 0;
    for _ in 0..2000 {
        let (kind, sheet) = road(&mut random, size);
        let right = solve(&sheet);
        assert_eq!(first_plan(&sheet), right.plan, "{kind:?}: {sheet:?}");
        with_ties += usize::from(right.ties > 0);
    }
    assert!(with_ties > 300, "{with_ties} roads with ties");
}

/// The plan of a large road is valid, costs as little as that of the planner by rows, and comes no
/// later.
#[test]
fn large_roads() {
    let size = Size {
        services: 0,
        cabinets: 1,
    };
    let mut random = Random::new(9);
    let (mut planned, mut earlier) = (0, 0);
    for _ in 0..40 {
        let sheet = of_kind(&mut random, Kind::Large, size);
        let bytes = second::build::tight(&sheet);
        let (mut costs, mut choices) = (vec![0; 200 << 10], vec![0; 200 << 10]);
        let answer = plain::plan(&bytes, &mut [0; 10], &mut costs, &mut choices);
        let first = first_plan(&sheet);
        assert!(first <= answer.plan, "{first:?} {:?}", answer.plan);
        if let Some(first) = &first {
            assert_eq!(check(&bytes, first), Ok(answer.cost));
            planned += 1;
        }
        earlier += usize::from(first < answer.plan);
    }
    assert!(
        planned > 15 && earlier > 5,
        "{planned} plans, {earlier} earlier"
    );
}
