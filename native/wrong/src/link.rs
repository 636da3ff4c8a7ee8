//! What a link charges in the planner for the sets below it, and the faults in that.

use crate::loads::{Runs, demand, one_a_pair};
use crate::rows::NONE;
use crate::splice::Where;
use crate::{Fault, Faulty};
use second::framing::taken;
use second::{Cabinet, Sheet, Stream};

impl Faulty {
    /// What the link of c charges for a set below it, of all services or of those in `whole`.
    pub fn link(&self, sheet: &Sheet, c: usize, set: usize, whole: usize) -> u64 {
        let cabinet = &sheet.cabinets[c];
        let runs = self.crossing(sheet, set, whole);
        if self.held_up(Where::Plan, sheet, c, &runs) {
            return NONE;
        }
        let framing = self.link_framing(sheet, c, whole, &runs);
        let (mut rise, mut fall) = (cabinet.up_capacity, cabinet.down_capacity);
        if self.has(Fault::PlanCapacitySwapped) {
            (rise, fall) = (fall, rise);
        }
        let carried =
            self.carried(&runs[0], framing[0], rise) && self.carried(&runs[1], framing[1], fall);
        match carried {
            true => self.charge(cabinet, &runs, framing),
            false => NONE,
        }
    }

    /// The streams that leave a set, and those that enter it.
    fn crossing(&self, sheet: &Sheet, set: usize, whole: usize) -> Runs {
        let streams = match self.has(Fault::PlanPairAsOne) {
            true => one_a_pair(&sheet.streams),
            false => sheet.streams.clone(),
        };
        let all = !self.has(Fault::PlanOuterStreams);
        let holds = |set: usize, end: u16| set >> end & 1 == 1;
        let counts = |t: &Stream| all || holds(whole, t.from) && holds(whole, t.to);
        [true, false].map(|up| {
            let crosses =
                |t: &Stream| counts(t) && holds(set, t.from) == up && holds(set, t.to) != up;
            streams.iter().copied().filter(crosses).collect()
        })
    }

    /// The streams and their framing fit in the capacity.
    fn carried(&self, streams: &[Stream], framing: u64, capacity: u16) -> bool {
        let capacity = u64::from(capacity);
        let load = demand(streams) + framing;
        match self.0 {
            Some(Fault::PlanStreamAlone) => streams.iter().all(|t| taken(t.demand) <= capacity),
            Some(Fault::PlanLink16) => load % 65_536 <= capacity,
            _ => load <= capacity,
        }
    }

    /// The demands times their prices.
    fn charge(&self, cabinet: &Cabinet, runs: &Runs, framing: [u64; 2]) -> u64 {
        let [mut up, mut down] = runs.each_ref().map(|streams| demand(streams));
        if self.has(Fault::PlanFramingPriced) {
            up += framing[0];
            down += framing[1];
        }
        let down_price = match self.has(Fault::PlanAlike) {
            true => cabinet.up_price,
            false => cabinet.down_price,
        };
        up * u64::from(cabinet.up_price) + down * u64::from(down_price)
    }
}
