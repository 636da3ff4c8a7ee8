//! Counts of what came up on roads that were planned as they are and rehung.

use std::collections::BTreeMap;
use std::fmt::{Display, Formatter, Result};

/// So many common roads must show everything.
const ENOUGH_ROADS: usize = 1000;
/// So many large ones must show all but what decides few of them.
const ENOUGH_LARGE: usize = 40;

/// What is told apart about a road and its two answers.
#[derive(Clone, Copy, Debug, PartialEq, Eq, PartialOrd, Ord)]
pub enum Seen {
    /// A plan for both.
    Plan,
    /// 12 for both.
    NoPlan,
    /// Another root, so that a link turned over.
    Turned,
    /// The same root, but other numbers.
    Root,
    /// Other counts weighed.
    Count,
    /// A plan that, carried over, is not the other one.
    OtherPlan,
    /// Another cost, or 12 in place of a plan, than if nothing were barred.
    Bars,
    /// The same if joints were cabinets like any other.
    Joints,
    /// The same if framing took no line.
    Framing,
}

impl Seen {
    /// All that must come up.
    pub const ALL: [Seen; 9] = [
        Seen::Plan,
        Seen::NoPlan,
        Seen::Turned,
        Seen::Root,
        Seen::Count,
        Seen::OtherPlan,
        Seen::Bars,
        Seen::Joints,
        Seen::Framing,
    ];

    /// It comes up on some of 40 large roads. Barred pairs, joints and framing decide few of those.
    fn comes_on_large(self) -> bool {
        !matches!(self, Seen::Bars | Seen::Joints | Seen::Framing)
    }

    /// The words for such roads.
    fn words(self) -> &'static str {
        match self {
            Seen::Plan => "with a plan",
            Seen::NoPlan => "with 12",
            Seen::Turned => "with a link turned over",
            Seen::Root => "with the same root and other numbers",
            Seen::Count => "with other counts weighed",
            Seen::OtherPlan => "with another plan",
            Seen::Bars => "whose cost or 12 barred pairs decide",
            Seen::Joints => "whose cost or 12 joints decide",
            Seen::Framing => "whose cost or 12 framing decides",
        }
    }
}

/// How many roads there were and on how many each came up: common ones, and large ones.
#[derive(Clone, Debug, Default)]
pub struct RehungTally {
    roads: [usize; 2],
    seen: BTreeMap<Seen, [usize; 2]>,
}

impl RehungTally {
    /// Notes a road, common or large, and what came up on it.
    pub fn road(&mut self, large: bool, seen: &[Seen]) {
        self.roads[usize::from(large)] += 1;
        for &seen in seen {
            self.seen.entry(seen).or_default()[usize::from(large)] += 1;
        }
    }

    /// How many roads there were, common and large.
    pub fn roads(&self) -> [usize; 2] {
        self.roads
    }

    /// On how many of them this came up.
    pub fn times(&self, seen: Seen) -> [usize; 2] {
        self.seen.get(&seen).copied().unwrap_or_default()
    }

    /// What never came up on common roads or on large ones, though there were enough.
    pub fn missing(&self) -> Option<String> {
        let [common, large] = self.roads;
        let mut all = Seen::ALL.into_iter();
        let unmet = |seen: &Seen| {
            let times = self.times(*seen);
            (common >= ENOUGH_ROADS && times[0] == 0)
                || (large >= ENOUGH_LARGE && times[1] == 0 && seen.comes_on_large())
        };
        let missing = all.find(unmet)?;
        Some(format!("of roads rehung, none {}", missing.words()))
    }
}

impl Display for RehungTally {
    fn fmt(&self, f: &mut Formatter<'_>) -> Result {
        writeln!(f, "roads planned as they are and rehung, common and large:")?;
        writeln!(f, "{:9} {:5} in all", self.roads[0], self.roads[1])?;
        for seen in Seen::ALL {
            let [common, large] = self.times(seen);
            writeln!(f, "{common:9} {large:5} {}", seen.words())?;
        }
        Ok(())
    }
}

#[cfg(test)]
mod tests {
    use super::*;

    /// A tally of so many common and large roads that show all but one.
    fn without(left_out: Option<Seen>, roads: [usize; 2]) -> RehungTally {
        let mut seen = Seen::ALL.to_vec();
        seen.retain(|&seen| Some(seen) != left_out);
        let mut tally = RehungTally::default();
        for (large, number) in [false, true].into_iter().zip(roads) {
            for _ in 0..number {
                tally.road(large, &seen);
            }
        }
        tally
    }

    #[test]
    fn each_is_asked_for() {
        assert_eq!(without(None, [1000, 40]).missing(), None);
        for seen in Seen::ALL {
            let missing = |roads| without(Some(seen), roads).missing();
            let told = missing([1000, 0]).unwrap_or_default();
            assert!(told.contains(seen.words()), "{seen:?}: {told}");
            assert_eq!(missing([0, 40]).is_some(), seen.comes_on_large());
            assert_eq!(missing([999, 39]), None);
        }
    }

    /// What comes up on large roads alone is missing among common ones, and the other way round.
    #[test]
    fn common_and_large_are_apart() {
        let [mut common, mut large] = [[1000, 0], [0, 40]].map(|roads| without(None, roads));
        (0..40).for_each(|_| common.road(true, &[]));
        (0..1000).for_each(|_| large.road(false, &[]));
        assert!(common.missing().is_some() && large.missing().is_some());
        assert_eq!(common.times(Seen::Plan), [1000, 0]);
        assert_eq!(large.times(Seen::Plan), [0, 40]);
    }
}
