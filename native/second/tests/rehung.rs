//! Roads rehung at other cabinets with other numbers: M written out, random roads there and back,
//! equal costs, equal checks, and wrong rehangings told by their costs.

use second::build::tight;
use second::measured::{m_barred, m_records};
use second::path::ancestors;
use second::plan::solve;
use second::random::case::{Origin, with_calls};
use second::random::layout::layout;
use second::random::rehung::{numbers, survey};
use second::random::road::{Kind, of_kind, road};
use second::random::{Random, Size};
use second::rehung::{carried, inverse, is_rehung, rehung};
use second::{Cabinet, Pair, Sheet, Stream, build, check, read};
use std::collections::BTreeMap;

const SIZE: Size = Size {
    services: 4,
    cabinets: 6,
};

/// The least cost, if there is a plan: what must be equal.
fn least(sheet: &Sheet) -> Option<u64> {
    let answer = solve(sheet);
    answer.plan.map(|_| answer.cost)
}

/// M with these cabinets in place of its own.
fn m_hung(cabinets: [[u16; 7]; 3]) -> Sheet {
    Sheet {
        cabinets: cabinets.map(Cabinet::from_words).to_vec(),
        ..m_records()
    }
}

/// M from its cabinet 1.
fn m_from_1() -> Sheet {
    m_hung([
        [65535, 3, 1, 0, 0, 0, 0],
        [0, 4, 5, 6, 1, 6, 2],
        [1, 3, 2, 2, 1, 6, 1],
    ])
}

/// M from its cabinet 2.
fn m_from_2() -> Sheet {
    m_hung([
        [65535, 3, 2, 0, 0, 0, 0],
        [0, 4, 5, 6, 1, 2, 1],
        [1, 3, 1, 6, 2, 6, 1],
    ])
}

#[test]
fn m_record_by_record() {
    assert_eq!(rehung(&m_records(), &[1, 0, 2]), m_from_1());
    assert_eq!(rehung(&m_records(), &[1, 2, 0]), m_from_2());
    assert_eq!(rehung(&m_records(), &[0, 1, 2]), m_records());
    let counts = [(m_records(), 18), (m_from_1(), 17), (m_from_2(), 17)];
    for (sheet, count) in counts {
        let answer = solve(&sheet);
        assert_eq!((answer.refusal, answer.cost), (0, 15), "{sheet:?}");
        assert_eq!(answer.count, count, "{sheet:?}");
    }
}

/// The pair goes along with its cabinet, and only the count is another.
#[test]
fn m_with_its_root_barred() {
    let (first, numbers) = (m_barred(&[[0, 0]]), [1, 0, 2]);
    let other = rehung(&first, &numbers);
    assert_eq!(other.barred, [Pair::from_words([0, 1])]);
    assert_eq!(other.cabinets, m_from_1().cabinets);
    let [first, other] = [first, other].map(|sheet| solve(&sheet));
    assert_eq!((first.refusal, first.cost, first.count), (0, 15, 15));
    assert_eq!((other.refusal, other.cost, other.count), (0, 15, 14));
    let plans = [first, other].map(|answer| answer.plan.unwrap_or_default());
    assert_eq!(plans, [vec![1, 2], vec![0, 2]]);
    assert_eq!(carried(&plans[0], &numbers), plans[1]);
}

/// A joint with two children alike is itself rehung when they change numbers. With one number for
/// both, a road whose second child is a joint would be that road too, and it has no plan.
#[test]
fn two_cabinets_with_one_number() {
    let ends = |other| {
        m_hung([
            [65535, 0, 5, 0, 0, 0, 0],
            [0, 3, 1, 6, 2, 6, 1],
            [0, other, 1, 6, 2, 6, 1],
        ])
    };
    assert!(is_rehung(&ends(3), &ends(3), &[0, 2, 1]));
    assert!(!is_rehung(&ends(3), &ends(0), &[0, 1, 1]));
    assert_eq!(
        [ends(3), ends(0)].map(|sheet| least(&sheet)),
        [Some(13), None]
    );
}

/// Random roads, each with new numbers for its cabinets.
fn roads(seed: u64, number: usize) -> Vec<(Sheet, Vec<u16>)> {
    let mut random = Random::new(seed);
    let draw = |_| {
        let (_, sheet) = road(&mut random, SIZE);
        let numbers = numbers(&mut random, &sheet.cabinets);
        (sheet, numbers)
    };
    (0..number).map(draw).collect()
}

/// Common roads and large ones.
#[test]
fn there_and_back() {
    let mut all = roads(30, 4000);
    let mut random = Random::new(31);
    for _ in 0..100 {
        let sheet = of_kind(&mut random, Kind::Large, SIZE);
        let numbers = numbers(&mut random, &sheet.cabinets);
        all.push((sheet, numbers));
    }
    let (mut turned, mut moved) = (0, 0);
    for (sheet, numbers) in all {
        let other = rehung(&sheet, &numbers);
        assert_eq!(read(&tight(&other)).as_ref(), Ok(&other));
        let back = inverse(&numbers);
        assert_eq!(rehung(&other, &back), sheet, "{numbers:?}");
        let cabinets: Vec<u16> = (0..numbers.len() as u16).collect();
        assert_eq!(carried(&numbers, &back), cabinets);
        assert!(is_rehung(&sheet, &other, &numbers), "{numbers:?}");
        assert!(is_rehung(&other, &sheet, &back), "{numbers:?}");
        assert!(is_rehung(&sheet, &sheet, &cabinets), "{sheet:?}");
        turned += usize::from(numbers[0] != 0);
        moved += usize::from(numbers[0] == 0 && numbers != cabinets);
    }
    assert!(turned > 1000 && moved > 200, "{turned} {moved}");
}

/// The roads whose costs are compared, here and where the rehanging is wrong.
fn compared() -> Vec<(Sheet, Vec<u16>)> {
    roads(32, 2000)
}

#[test]
fn costs_are_equal() {
    let roads = compared();
    let mut plans = 0;
    for (sheet, numbers) in &roads {
        let [cost, other] = [sheet, &rehung(sheet, numbers)].map(least);
        assert_eq!(cost, other, "{numbers:?}: {sheet:?}");
        plans += usize::from(cost.is_some());
    }
    let none = roads.len() - plans;
    assert!(plans > 500 && none > 200, "{plans} plans, {none} times 12");
}

/// The second survey has pairs in another order and repeated, in a layout of its own.
#[test]
fn checks_are_equal() {
    let mut random = Random::new(33);
    let mut answers: BTreeMap<u64, usize> = BTreeMap::new();
    let mut repeated = 0;
    for _ in 0..1000 {
        let (kind, sheet) = road(&mut random, SIZE);
        let case = with_calls(&mut random, Origin::Road(kind), tight(&sheet));
        let (numbers, other) = survey(&mut random, &sheet);
        let bytes = build(&other, &layout(&mut random, &other));
        assert_eq!(read(&bytes).as_ref(), Ok(&other));
        assert!(is_rehung(&sheet, &other, &numbers), "{numbers:?}");
        repeated += usize::from(other.barred.len() > sheet.barred.len());
        for plan in &case.plans {
            let right = check(&case.sheet, plan);
            let answer = check(&bytes, &carried(plan, &numbers));
            assert_eq!(answer, right, "{plan:?} by {numbers:?}: {sheet:?}");
            *answers.entry(right.err().unwrap_or(0)).or_default() += 1;
        }
    }
    assert!(repeated > 100, "{repeated} sheets with pairs repeated");
    for answer in [0, 13, 14, 15, 16, 20] {
        let times = answers.get(&answer).copied().unwrap_or(0);
        assert!(times > 100, "{answer}: {answers:?}");
    }
}

/// What a surveyor can get wrong.
#[derive(Clone, Copy, Debug)]
enum Slip {
    /// Up and down capacities of the links that turn over are not exchanged.
    LinkCapacities,
    /// Their prices are not.
    LinkPrices,
    /// Neither are.
    Links,
    /// Barred pairs keep their numbers.
    Bars,
    /// Prices of cabinets stay with the numbers.
    Prices,
    /// Capacities of cabinets do.
    Capacities,
    /// Two cabinets get one number.
    Number,
    /// Services stand in another order.
    Services,
    /// Streams run the other way.
    Streams,
}

const SLIPS: [Slip; 9] = [
    Slip::LinkCapacities,
    Slip::LinkPrices,
    Slip::Links,
    Slip::Bars,
    Slip::Prices,
    Slip::Capacities,
    Slip::Number,
    Slip::Services,
    Slip::Streams,
];

impl Slip {
    /// The rehung sheet with this slip.
    fn make(self, sheet: &Sheet, numbers: &[u16]) -> Sheet {
        let mut wrong = rehung(sheet, numbers);
        match self {
            Slip::LinkCapacities => unexchanged(&mut wrong, numbers, true, false),
            Slip::LinkPrices => unexchanged(&mut wrong, numbers, false, true),
            Slip::Links => unexchanged(&mut wrong, numbers, true, true),
            Slip::Bars => wrong.barred.clone_from(&sheet.barred),
            Slip::Prices => left(&mut wrong, sheet, |cabinet, old| cabinet.price = old.price),
            Slip::Capacities => left(&mut wrong, sheet, |cabinet, old| {
                cabinet.capacity = old.capacity;
            }),
            Slip::Number => one_number(&mut wrong),
            Slip::Services => wrong.services.reverse(),
            Slip::Streams => wrong.streams.iter_mut().for_each(reverse),
        }
        wrong
    }
}

/// Exchanges up and down once more on the links that turned over: those from the old root to the new
/// one.
fn unexchanged(sheet: &mut Sheet, numbers: &[u16], capacities: bool, prices: bool) {
    let way = ancestors(sheet, usize::from(numbers[0]));
    for c in way.into_iter().filter(|&c| c != 0) {
        let cabinet = &mut sheet.cabinets[c];
        if capacities {
            std::mem::swap(&mut cabinet.up_capacity, &mut cabinet.down_capacity);
        }
        if prices {
            std::mem::swap(&mut cabinet.up_price, &mut cabinet.down_price);
        }
    }
}

/// Leaves with each number what it had before.
fn left(wrong: &mut Sheet, sheet: &Sheet, leave: impl Fn(&mut Cabinet, &Cabinet)) {
    for (cabinet, old) in wrong.cabinets.iter_mut().zip(&sheet.cabinets) {
        leave(cabinet, old);
    }
}

/// Lets the stream run the other way.
fn reverse(stream: &mut Stream) {
    std::mem::swap(&mut stream.from, &mut stream.to);
}

/// Gives the last cabinet the number 1: under its own there is the record of cabinet 1 once more, and
/// its barred pairs name that one.
fn one_number(sheet: &mut Sheet) {
    let last = sheet.cabinets.len() - 1;
    if last > 1 {
        sheet.cabinets[last] = sheet.cabinets[1];
        for pair in &mut sheet.barred {
            pair.cabinet = match usize::from(pair.cabinet) == last {
                true => 1,
                false => pair.cabinet,
            };
        }
    }
}

/// Each slip leaves sheets that the reader accepts, and makes some roads dearer, or without a plan,
/// and others cheaper; and no such sheet is the road rehung.
#[test]
fn slips_are_seen() {
    let roads: Vec<_> = compared()
        .into_iter()
        .map(|(sheet, numbers)| (least(&sheet), sheet, numbers))
        .collect();
    for slip in SLIPS {
        let (mut dearer, mut cheaper) = (0, 0);
        for (right, sheet, numbers) in &roads {
            let wrong = slip.make(sheet, numbers);
            assert_eq!(read(&tight(&wrong)).as_ref(), Ok(&wrong), "{slip:?}");
            let [right, found] = [*right, least(&wrong)].map(|cost| cost.unwrap_or(u64::MAX));
            let differs = !is_rehung(sheet, &wrong, numbers);
            assert!(found == right || differs, "{slip:?}: {sheet:?}");
            dearer += usize::from(found > right);
            cheaper += usize::from(found < right);
        }
        assert!(dearer > 3 && cheaper > 3, "{slip:?}: {dearer} {cheaper}");
    }
}
