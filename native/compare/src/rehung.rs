//! Roads that the proved planner plans as they are and rehung, with other numbers: equal costs, and
//! plans that can be carried over.

use crate::rehung_tally::{RehungTally, Seen};
use gazrieksne::calls;
use plain::Rules;
use second::build::tight;
use second::hex::dump;
use second::random::layout::layout;
use second::random::rehung::survey;
use second::random::road::{Kind, of_kind, road};
use second::random::{Random, Size};
use second::rehung::{carried, inverse, is_rehung};
use second::{Sheet, build};

/// The most services and cabinets of common roads.
const SIZE: Size = Size {
    services: 6,
    cabinets: 12,
};

/// Plans so many common roads and then so many large ones, each as it is and rehung. The error is the
/// first difference in full, or what enough roads should have shown and did not.
pub fn run(roads: usize, large: usize, seed: u64) -> Result<RehungTally, String> {
    let mut random = Random::new(seed);
    let mut tally = RehungTally::default();
    for number in 0..roads + large {
        let is_large = number >= roads;
        let sheet = match is_large {
            true => of_kind(&mut random, Kind::Large, SIZE),
            false => road(&mut random, SIZE).1,
        };
        let (numbers, other) = survey(&mut random, &sheet);
        let surveys = Surveys::new(&mut random, [sheet, other], numbers);
        let planned = surveys
            .one_road()
            .and_then(|()| surveys.compare(&mut random));
        let planned = planned.map_err(|what| {
            let surveys = surveys.describe();
            format!("road {number} of seed {seed}, rehung: {what}\n{surveys}")
        })?;
        tally.road(is_large, &surveys.seen(&mut random, &planned));
    }
    match tally.missing() {
        Some(missing) => Err(missing),
        None => Ok(tally),
    }
}

/// One road as two surveyors write it: what their sheets say, the sheets, and the number that each
/// cabinet of the first has in the second.
struct Surveys {
    records: [Sheet; 2],
    sheets: [Vec<u8>; 2],
    numbers: Vec<u16>,
}

/// What the planner gives: the refusal, the cost, the count, and the plan, of no place in a refusal.
struct Planned {
    refusal: u64,
    cost: u64,
    count: u64,
    plan: Vec<u16>,
}

impl Planned {
    /// The cost, if there is a plan.
    fn least(&self) -> Option<u64> {
        (self.refusal == 0).then_some(self.cost)
    }
}

impl Surveys {
    /// Two surveys, each in a layout of its own.
    fn new(random: &mut Random, records: [Sheet; 2], numbers: Vec<u16>) -> Surveys {
        let sheets = [0, 1].map(|k| {
            let records = &records[k];
            build(records, &layout(random, records))
        });
        Surveys {
            records,
            sheets,
            numbers,
        }
    }

    /// The second is the first rehung and renumbered.
    fn one_road(&self) -> Result<(), String> {
        let [first, other] = &self.records;
        match is_rehung(first, other, &self.numbers) {
            true => Ok(()),
            false => Err("not one road".to_string()),
        }
    }

    /// Plans both: each gets 12, or each gets a plan of the same cost, which the check accepts at this
    /// cost on the other sheet when it is carried over.
    fn compare(&self, random: &mut Random) -> Result<[Planned; 2], String> {
        let planned = [0, 1].map(|k| plan(random, &self.records[k], &self.sheets[k]));
        let [first, other] = &planned;
        let figures = planned.each_ref().map(|p| (p.refusal, p.cost));
        if figures[0] != figures[1] || !matches!(first.refusal, 0 | 12) {
            return Err(format!("refusals and costs are {figures:?}"));
        }
        if first.refusal == 0 {
            let there = carried(&first.plan, &self.numbers);
            let back = carried(&other.plan, &inverse(&self.numbers));
            accepted(&self.sheets[1], &there, first.cost)?;
            accepted(&self.sheets[0], &back, first.cost)?;
        }
        Ok(planned)
    }

    /// What came up on the road, by what both sheets got.
    fn seen(&self, random: &mut Random, [first, other]: &[Planned; 2]) -> Vec<Seen> {
        let least = first.least();
        let turned = self.numbers[0] != 0;
        let moved = !self.numbers.is_sorted();
        let there = carried(&first.plan, &self.numbers);
        let without = |rules| plain::figures(&self.records[0], rules).0;
        let seen = [
            (Seen::Plan, least.is_some()),
            (Seen::NoPlan, least.is_none()),
            (Seen::Turned, turned),
            (Seen::Root, moved && !turned),
            (Seen::Count, first.count != other.count),
            (Seen::OtherPlan, there != other.plan),
            (Seen::Bars, self.unbarred(random) != least),
            (Seen::Joints, without(Rules::WITHOUT_JOINTS) != least),
            (Seen::Framing, without(Rules::UNFRAMED) != least),
        ];
        let holding = seen.into_iter().filter(|(_, holds)| *holds);
        holding.map(|(seen, _)| seen).collect()
    }

    /// The cost of a cheapest plan if nothing were barred, if there is a plan then.
    fn unbarred(&self, random: &mut Random) -> Option<u64> {
        let mut records = self.records[0].clone();
        records.barred.clear();
        plan(random, &records, &tight(&records)).least()
    }

    /// Both sheets and the numbers in full.
    fn describe(&self) -> String {
        let [first, other] = self.sheets.each_ref().map(|sheet| dump(sheet));
        let numbers = &self.numbers;
        format!("sheet:\n{first}\nrehung:\n{other}\nnumbers: {numbers:?}")
    }
}

/// Plans with an output and tables that are just long enough or longer, all of them dirty.
fn plan(random: &mut Random, records: &Sheet, sheet: &[u8]) -> Planned {
    let mut dirty = |least: usize| -> Vec<u64> {
        let length = least + random.pick(&[0, 0, 1, 9]);
        let mut any = || [0, 1, u64::MAX, random.next()][random.below(4)];
        (0..length).map(|_| any()).collect()
    };
    let words = |all: Vec<u64>| -> Vec<u16> { all.into_iter().map(|any| any as u16).collect() };
    let (places, entries) = (records.services.len(), records.entries());
    let mut output = words(dirty(places));
    let mut costs = dirty(entries);
    let mut choices = words(dirty(entries));
    let mut answer = [0; 3];
    let refusal = calls::plan(sheet, &mut output, &mut costs, &mut choices, &mut answer);
    let [_, cost, count] = answer;
    output.truncate(if refusal == 0 { places } else { 0 });
    Planned {
        refusal,
        cost,
        count,
        plan: output,
    }
}

/// The check accepts the plan at this cost.
fn accepted(sheet: &[u8], plan: &[u16], cost: u64) -> Result<(), String> {
    let mut answer = [0; 2];
    let refusal = calls::check(sheet, plan, &mut answer);
    match (refusal, answer[1] == cost) {
        (0, true) => Ok(()),
        _ => Err(format!(
            "a plan of cost {cost}, carried over as {plan:?}, gets {refusal} and cost {}",
            answer[1]
        )),
    }
}

#[cfg(test)]
mod tests {
    use super::*;
    use second::measured::{m_barred, m_records, z};
    use second::rehung::rehung;

    /// The numbers of M's cabinets when it hangs from cabinet 1, and from cabinet 2.
    const FROM_1: [u16; 3] = [1, 0, 2];
    const FROM_2: [u16; 3] = [1, 2, 0];

    /// What the comparison says of two sheets, with what came up.
    fn compared(records: [Sheet; 2], numbers: [u16; 3]) -> Result<Compared, String> {
        let mut random = Random::new(1);
        let surveys = Surveys::new(&mut random, records, numbers.to_vec());
        let planned = surveys.compare(&mut random)?;
        Ok(Compared {
            costs: planned.each_ref().map(Planned::least),
            counts: planned.each_ref().map(|p| p.count),
            seen: surveys.seen(&mut random, &planned),
        })
    }

    struct Compared {
        costs: [Option<u64>; 2],
        counts: [u64; 2],
        seen: Vec<Seen>,
    }

    /// M as it is, and rightly rehung.
    fn m(pairs: &[[u16; 2]], numbers: [u16; 3]) -> [Sheet; 2] {
        let m = m_barred(pairs);
        let other = rehung(&m, &numbers);
        [m, other]
    }

    #[test]
    fn m_rehung() {
        let cases: [(&[[u16; 2]], _, _); 3] = [
            (&[], FROM_1, [18, 17]),
            (&[], FROM_2, [18, 17]),
            (&[[0, 0]], FROM_1, [15, 14]),
        ];
        for (pairs, numbers, counts) in cases {
            let found = compared(m(pairs, numbers), numbers);
            let found = found.unwrap_or_else(|difference| panic!("{difference}"));
            assert_eq!(found.costs, [Some(15); 2]);
            assert_eq!(found.counts, counts);
        }
    }

    /// From cabinet 1 another of the two cheapest plans of M comes first; from its root, with two
    /// numbers exchanged, the same. Barred pairs leave no plan, nor does framing on M0; on Z the third
    /// service may not be on the joint.
    #[test]
    fn what_came_up_on_measured_roads() {
        let seen = |sheet: Sheet, numbers: [u16; 3]| {
            let other = rehung(&sheet, &numbers);
            compared([sheet, other], numbers).map(|found| found.seen)
        };
        let plan = [Seen::Plan, Seen::Turned, Seen::Count, Seen::OtherPlan];
        assert_eq!(seen(m_records(), FROM_1), Ok(plan.to_vec()));
        let root = [Seen::Plan, Seen::Root];
        assert_eq!(seen(m_records(), [0, 2, 1]), Ok(root.to_vec()));
        let barred = [Seen::NoPlan, Seen::Turned, Seen::Bars];
        let pairs = m_barred(&[[0, 0], [0, 1], [0, 2]]);
        assert_eq!(seen(pairs, FROM_1), Ok(barred.to_vec()));
        let mut m0 = m_records();
        m0.cabinets[0].capacity = 0;
        m0.cabinets[1].up_capacity = 4;
        let framed = [Seen::NoPlan, Seen::Turned, Seen::Count, Seen::Framing];
        assert_eq!(seen(m0, FROM_1), Ok(framed.to_vec()));
        let jointed = [Seen::Plan, Seen::Turned, Seen::Count, Seen::Joints];
        assert_eq!(seen(z(), FROM_1), Ok(jointed.to_vec()));
    }

    /// The second sheet wrong by a price that is not exchanged, or by pairs that the first has not;
    /// and right sheets with the wrong numbers.
    #[test]
    fn differences_are_told() {
        let difference = |records, numbers| compared(records, numbers).err().unwrap_or_default();
        let [m, mut other] = m(&[], FROM_1);
        other.cabinets[1].up_price = 2;
        other.cabinets[1].down_price = 1;
        let told = difference([m.clone(), other], FROM_1);
        assert!(told.contains("[(0, 15), (0, 12)]"), "{told}");
        let barred = m_barred(&[[0, 0], [0, 1], [0, 2]]);
        let told = difference([m, rehung(&barred, &FROM_1)], FROM_1);
        assert!(told.contains("[(0, 15), (12, 0)]"), "{told}");
        let right = [m_records(), rehung(&m_records(), &FROM_1)];
        let told = difference(right, [0, 1, 2]);
        assert!(told.contains("carried over as [0, 1]"), "{told}");
    }
}
