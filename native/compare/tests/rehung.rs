//! The proved planner finds equal costs on roads as they are and rehung, and its plans can be carried
//! over; counts and plans differ on many of them.

use compare::{Seen, rehung};

#[test]
fn equal_costs_and_plans_carried_over() {
    let tally = rehung::run(4000, 10, 12).unwrap_or_else(|difference| panic!("{difference}"));
    assert_eq!(tally.roads(), [4000, 10]);
    for seen in Seen::ALL {
        let [common, _] = tally.times(seen);
        assert!(common > 50, "{seen:?}: {common}");
    }
    for seen in [Seen::Plan, Seen::Turned, Seen::Count, Seen::OtherPlan] {
        let [_, large] = tally.times(seen);
        assert!(large > 0, "{seen:?}: {large}");
    }
}
