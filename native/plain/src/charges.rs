//! What a cabinet and a link charge for each set of services.

use crate::{NONE, Rules};
use second::{Cabinet, Sheet};

/// The streams that cross the link of a set in one direction.
#[derive(Clone, Copy, Default)]
struct Crossing {
    /// Their demands.
    demand: u64,
    /// How many of them have a demand above 0.
    framed: u8,
}

/// For each set: the demand of its services, and the streams that leave and enter it. For each
/// cabinet: the set of services that it may not hold. What the framing of a stream takes.
pub struct Charges {
    kept_off: Vec<usize>,
    demand: Vec<u64>,
    out: Vec<Crossing>,
    into: Vec<Crossing>,
    framing: u64,
}

impl Charges {
    pub fn new(sheet: &Sheet, rules: Rules) -> Charges {
        let sets = 0..1_usize << sheet.services.len();
        let demand = |set: usize| {
            let services = sheet.services.iter().enumerate();
            let inside = services.filter(|(i, _)| set >> i & 1 == 1);
            inside.map(|(_, &demand)| u64::from(demand)).sum()
        };
        Charges {
            kept_off: kept_off(sheet, rules),
            demand: sets.clone().map(demand).collect(),
            out: sets.clone().map(|set| crossing(sheet, set, true)).collect(),
            into: sets.map(|set| crossing(sheet, set, false)).collect(),
            framing: rules.framing,
        }
    }

    /// The row of cabinet c when it holds each set alone.
    pub fn cabinet(&self, c: usize, cabinet: &Cabinet, row: &mut [u64]) {
        let kept_off = self.kept_off[c];
        for (set, (figure, &demand)) in row.iter_mut().zip(&self.demand).enumerate() {
            *figure = if set & kept_off == 0 && demand <= u64::from(cabinet.capacity) {
                demand * u64::from(cabinet.price)
            } else {
                NONE
            };
        }
    }

    /// The row of a cabinet's link, for each set below it.
    pub fn link(&self, cabinet: &Cabinet, row: &mut [u64]) {
        let fits = |line: &Crossing, capacity: u16| {
            line.demand + self.framing * u64::from(line.framed) <= u64::from(capacity)
        };
        let lines = self.out.iter().zip(&self.into);
        for (figure, (up, down)) in row.iter_mut().zip(lines) {
            *figure = if fits(up, cabinet.up_capacity) && fits(down, cabinet.down_capacity) {
                up.demand * u64::from(cabinet.up_price)
                    + down.demand * u64::from(cabinet.down_price)
            } else {
                NONE
            };
        }
    }
}

/// The streams that leave a set, or those that enter it.
fn crossing(sheet: &Sheet, set: usize, leaving: bool) -> Crossing {
    let holds = |service: u16| set >> service & 1 == 1;
    let mut crossing = Crossing::default();
    for stream in &sheet.streams {
        if holds(stream.from) == leaving && holds(stream.to) != leaving {
            crossing.demand += u64::from(stream.demand);
            crossing.framed += u8::from(stream.demand > 0);
        }
    }
    crossing
}

/// The services that each cabinet may not hold, as a set: those barred from it, and all of them if it
/// is a joint.
fn kept_off(sheet: &Sheet, rules: Rules) -> Vec<usize> {
    let all = (1 << sheet.services.len()) - 1;
    let of = |cabinet: &Cabinet| match rules.joints && cabinet.is_joint() {
        true => all,
        false => 0,
    };
    let mut kept_off: Vec<usize> = sheet.cabinets.iter().map(of).collect();
    for pair in &sheet.barred {
        kept_off[usize::from(pair.cabinet)] |= 1 << pair.service;
    }
    kept_off
}
