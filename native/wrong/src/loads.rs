//! What a plan puts on cabinets and links, by walking both ends of a stream to where they meet.

use crate::{Fault, Faulty};
use second::framing::taken;
use second::{Sheet, Stream};

/// The streams that run up the link of a cabinet, and those that run down.
pub type Runs = [Vec<Stream>; 2];

/// What is on one direction of a link.
#[derive(Clone, Copy)]
pub struct Line {
    /// The demands of its streams.
    pub demand: u64,
    /// The same with framing.
    pub load: u64,
    /// The most that one stream takes.
    pub largest: u64,
}

/// What is on a cabinet, and on the two directions of its link.
pub struct Load {
    pub fill: u64,
    /// The largest demand of a service there.
    pub largest: u64,
    pub up: Line,
    pub down: Line,
}

/// The demands of streams, summed up.
pub fn demand(streams: &[Stream]) -> u64 {
    streams.iter().map(|stream| u64::from(stream.demand)).sum()
}

/// The streams without those that join a pair that was joined before.
pub fn one_a_pair(streams: &[Stream]) -> Vec<Stream> {
    let mut kept: Vec<Stream> = vec![];
    for stream in streams {
        if !kept
            .iter()
            .any(|k| (k.from, k.to) == (stream.from, stream.to))
        {
            kept.push(*stream);
        }
    }
    kept
}

/// The line that these streams run along with this framing.
fn line(streams: &[Stream], framing: u64) -> Line {
    let alone = streams.iter().map(|stream| taken(stream.demand));
    Line {
        demand: demand(streams),
        load: demand(streams) + framing,
        largest: alone.max().unwrap_or(0),
    }
}

impl Faulty {
    /// What a plan puts on each cabinet and link.
    pub fn loads(&self, sheet: &Sheet, plan: &[u16]) -> Vec<Load> {
        let runs = self.runs(sheet, plan, usize::MAX);
        let framed = match self.has(Fault::CheckFramingFirstLink) {
            true => self.runs(sheet, plan, 1),
            false => runs.clone(),
        };
        let load = |(c, [up, down]): (usize, &Runs)| {
            let framing = self.check_manner().framing(&framed[c]);
            let services = plan.iter().zip(&sheet.services);
            let there = services.filter(|(place, _)| usize::from(**place) == c);
            let demands: Vec<u64> = there.map(|(_, &demand)| u64::from(demand)).collect();
            Load {
                fill: demands.iter().sum(),
                largest: demands.iter().copied().max().unwrap_or(0),
                up: line(up, framing[0]),
                down: line(down, framing[1]),
            }
        };
        runs.iter().enumerate().map(load).collect()
    }

    /// The streams on each link, each on so many links of its path at most.
    pub fn runs(&self, sheet: &Sheet, plan: &[u16], links: usize) -> Vec<Runs> {
        let mut runs = vec![Runs::default(); sheet.cabinets.len()];
        let streams = match self.has(Fault::CheckPairAsOne) {
            true => one_a_pair(&sheet.streams),
            false => sheet.streams.clone(),
        };
        for stream in streams {
            for (c, up) in self.walk(sheet, plan, &stream).into_iter().take(links) {
                runs[c][usize::from(!up)].push(stream);
            }
        }
        runs
    }

    /// The links of a stream's path: the cabinet below, and whether it is taken upwards.
    pub fn walk(&self, sheet: &Sheet, plan: &[u16], stream: &Stream) -> Vec<(usize, bool)> {
        let mut from = usize::from(plan[usize::from(stream.from)]);
        let mut to = usize::from(plan[usize::from(stream.to)]);
        let parent = |c: usize| usize::from(sheet.cabinets[c].parent);
        let mut links = vec![];
        while from != to || (self.has(Fault::CheckThroughRoot) && from != 0) {
            // Parents have smaller numbers, so the larger end is not above the other.
            if from >= to {
                links.push((from, true));
                from = parent(from);
            } else {
                links.push((to, false));
                to = parent(to);
            }
        }
        links
    }
}
