//! What framing takes of a line, and the faults of the check and the planner in it.

use crate::loads::Runs;
use crate::rows::children;
use crate::{Fault, Faulty};
use second::framing::FRAMING;
use second::{Sheet, Stream};
use std::collections::BTreeSet;

/// How the framing of the streams over a link is counted.
#[derive(Clone, Copy)]
pub enum Manner {
    /// For each stream of demand above 0, in the direction that it runs.
    EachStream,
    /// Not at all.
    Not,
    /// Once for all streams of a pair.
    EachPair,
    /// Once for all streams of a sender.
    EachSender,
    /// Once for all streams that run the same way.
    EachLine,
    /// For streams of demand 0 too.
    IdleToo,
    /// For streams of demand 2 or more only.
    FromTwo,
    /// One unit a stream.
    One,
    /// Three units a stream.
    Three,
    /// Upwards only.
    Up,
    /// Downwards only.
    Down,
    /// In both directions, whichever the stream runs.
    BothWays,
}

impl Manner {
    /// What framing takes of the two directions of a link.
    pub fn framing(self, runs: &Runs) -> [u64; 2] {
        let [up, down] = runs.each_ref().map(|streams| self.one_way(streams));
        match self {
            Manner::Up => [up, 0],
            Manner::Down => [0, down],
            Manner::BothWays => [up + down; 2],
            _ => [up, down],
        }
    }

    /// What framing takes of one direction for the streams that run this way.
    fn one_way(self, streams: &[Stream]) -> u64 {
        let least = match self {
            Manner::IdleToo => 0,
            Manner::FromTwo => 2,
            _ => 1,
        };
        let framed = streams.iter().filter(|stream| stream.demand >= least);
        let number = match self {
            Manner::Not => 0,
            Manner::EachPair => different(framed.map(|stream| (stream.from, stream.to))),
            Manner::EachSender => different(framed.map(|stream| stream.from)),
            Manner::EachLine => framed.count().min(1),
            _ => framed.count(),
        };
        let units = match self {
            Manner::One => 1,
            Manner::Three => 3,
            _ => FRAMING,
        };
        units * number as u64
    }
}

/// How many different items there are.
fn different<T: Ord>(items: impl Iterator<Item = T>) -> usize {
    items.collect::<BTreeSet<T>>().len()
}

impl Faulty {
    /// How the check counts framing.
    pub fn check_manner(&self) -> Manner {
        match self.0 {
            Some(Fault::CheckFramingNot) => Manner::Not,
            Some(Fault::CheckFramingPair) => Manner::EachPair,
            Some(Fault::CheckFramingSender) => Manner::EachSender,
            Some(Fault::CheckFramingLine) => Manner::EachLine,
            Some(Fault::CheckFramingIdle) => Manner::IdleToo,
            Some(Fault::CheckFramingFromTwo) => Manner::FromTwo,
            Some(Fault::CheckFramingOne) => Manner::One,
            Some(Fault::CheckFramingThree) => Manner::Three,
            Some(Fault::CheckFramingUp) => Manner::Up,
            Some(Fault::CheckFramingDown) => Manner::Down,
            Some(Fault::CheckFramingBothWays) => Manner::BothWays,
            _ => Manner::EachStream,
        }
    }

    /// How the planner does.
    fn plan_manner(&self) -> Manner {
        match self.0 {
            Some(Fault::PlanFramingNot | Fault::PlanFramingCountOnly) => Manner::Not,
            Some(Fault::PlanFramingPair) => Manner::EachPair,
            Some(Fault::PlanFramingSender) => Manner::EachSender,
            Some(Fault::PlanFramingLine) => Manner::EachLine,
            Some(Fault::PlanFramingIdle) => Manner::IdleToo,
            Some(Fault::PlanFramingFromTwo) => Manner::FromTwo,
            Some(Fault::PlanFramingOne) => Manner::One,
            Some(Fault::PlanFramingThree) => Manner::Three,
            Some(Fault::PlanFramingUp) => Manner::Up,
            Some(Fault::PlanFramingDown) => Manner::Down,
            Some(Fault::PlanFramingBothWays) => Manner::BothWays,
            _ => Manner::EachStream,
        }
    }

    /// What framing takes of the link of c in the planner, for a set below it of those in `whole`.
    pub fn link_framing(&self, sheet: &Sheet, c: usize, whole: usize, runs: &Runs) -> [u64; 2] {
        let inner = !children(sheet, c).is_empty();
        let holds = |end: u16| whole >> end & 1 == 1;
        let framed = |stream: &Stream| match self.0 {
            Some(Fault::PlanFramingLeaf) => !inner,
            Some(Fault::PlanFramingWithin) => holds(stream.from) && holds(stream.to),
            _ => true,
        };
        let runs = runs.each_ref().map(|streams| {
            let streams = streams.iter().copied();
            streams.filter(framed).collect()
        });
        self.plan_manner().framing(&runs)
    }

    /// The count of splits if only the rows, or only the count, are reckoned with framing.
    pub fn other_framing(&self, sheet: &Sheet) -> Option<u64> {
        let other = match self.0 {
            Some(Fault::PlanFramingNotCounted) => Faulty(Some(Fault::PlanFramingNot)),
            Some(Fault::PlanFramingCountOnly) => Faulty(None),
            _ => return None,
        };
        Some(other.rows(sheet, &[], &[]).count)
    }
}
