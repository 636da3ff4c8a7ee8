//! The measured roads answer as the papers say.

use second::build::tight;
use second::measured::{m, m_barred, m_records, roads, z};
use second::{check, plan, read};

#[test]
fn reader_gives_the_records_of_m() {
    assert_eq!(read(&m()), Ok(m_records()));
    assert_eq!(tight(&m_records()), m());
}

#[test]
fn checks_on_m() {
    assert_eq!(check(&m(), &[0, 1]), Ok(15));
    assert_eq!(check(&m(), &[1, 2]), Ok(15));
    assert_eq!(check(&m(), &[1, 0]), Ok(18));
    assert_eq!(check(&m(), &[0, 0]), Ok(20));
    assert_eq!(check(&m(), &[1, 1]), Err(15));
    assert_eq!(check(&m(), &[2, 0]), Err(16));
    assert_eq!(check(&m(), &[3, 0]), Err(14));
    assert_eq!(check(&m(), &[0]), Err(13));
}

#[test]
fn planner_on_all_measured_roads() {
    for road in roads() {
        let answer = plan(&road.sheet, 10, 4096, 4096);
        assert_eq!(answer.refusal, road.refusal, "{}", road.name);
        assert_eq!(answer.cost, road.cost, "{}", road.name);
        if let Some(count) = road.count {
            assert_eq!(answer.count, count, "{}", road.name);
        }
        if road.refusal == 0 {
            assert_eq!(check(&road.sheet, road.plan), Ok(road.cost));
        }
        assert_eq!(answer.plan.unwrap_or_default(), road.plan, "{}", road.name);
    }
}

#[test]
fn how_many_plans_tie_on_m_m0_and_z() {
    let m0 = &roads()[2].sheet;
    assert_eq!(plan(&m(), 2, 12, 12).ties, 1);
    assert_eq!(plan(m0, 2, 12, 12).ties, 0);
    // Services 0 and 1 can change places.
    assert_eq!(plan(&tight(&z()), 3, 24, 24).ties, 1);
    assert_eq!(check(&tight(&z()), &[2, 1, 1]), Ok(15));
}

/// The root is a joint, and beside the service on cabinet 2 the third cannot send what it must.
#[test]
fn the_third_service_of_z() {
    let sheet = tight(&z());
    assert_eq!(check(&sheet, &[1, 2, 0]), Err(15));
    assert_eq!(check(&sheet, &[2, 1, 0]), Err(15));
    assert_eq!(check(&sheet, &[1, 2, 2]), Err(16));
}

#[test]
fn m_with_the_root_barred() {
    let sheet = tight(&m_barred(&[[0, 0]]));
    assert_eq!(check(&sheet, &[0, 1]), Err(20));
    let cheapest = [0, 1, 2].map(|a| [0, 1, 2].map(|b| [a, b])).concat();
    let cheapest = cheapest.iter().filter(|p| check(&sheet, *p) == Ok(15));
    assert_eq!(cheapest.collect::<Vec<_>>(), [&[1, 2]]);
    assert_eq!(plan(&sheet, 2, 12, 12).plan, Some(vec![1, 2]));
}

#[test]
fn thirty_bytes_need_one_entry() {
    let roads = roads();
    let least = roads.iter().find(|road| road.name == "30 bytes");
    let least = &least.expect("a measured road").sheet;
    assert_eq!(least.len(), 30);
    assert_eq!(plan(least, 0, 1, 1).refusal, 0);
    assert_eq!(plan(least, 0, 0, 1).refusal, 11);
    assert_eq!(plan(least, 0, 1, 0).refusal, 11);
}
