//! The measured roads, with the answers that the papers give for them.

use crate::build::tight;
use crate::limits::NO_PARENT;
use crate::sheet::{Cabinet, Pair, Sheet, Stream};

/// A road and what the planner answers for it: the refusal, the cost, the count where the papers
/// give it, and the plan, of no place in a refusal.
pub struct Measured {
    pub name: &'static str,
    pub sheet: Vec<u8>,
    pub refusal: u64,
    pub cost: u64,
    pub count: Option<u64>,
    pub plan: &'static [u16],
}

/// Road M, word by word.
const M: [u16; 34] = [
    2, 3, 1, 16, 20, 62, 68, 0, // header
    2, 2, // services
    65535, 4, 5, 0, 0, 0, 0, // cabinets
    0, 3, 1, 6, 2, 6, 1, //
    0, 3, 2, 2, 1, 6, 1, //
    0, 1, 3, // stream
];

/// The bytes of road M.
pub fn m() -> Vec<u8> {
    M.iter().flat_map(|w| w.to_le_bytes()).collect()
}

/// The records of road M.
pub fn m_records() -> Sheet {
    Sheet {
        services: vec![2, 2],
        cabinets: vec![
            Cabinet::from_words([65535, 4, 5, 0, 0, 0, 0]),
            Cabinet::from_words([0, 3, 1, 6, 2, 6, 1]),
            Cabinet::from_words([0, 3, 2, 2, 1, 6, 1]),
        ],
        streams: vec![Stream::from_words([0, 1, 3])],
        barred: vec![],
    }
}

/// M with barred pairs, each a service and a cabinet.
pub fn m_barred(pairs: &[[u16; 2]]) -> Sheet {
    let mut sheet = m_records();
    sheet.barred = pairs.iter().map(|&words| Pair::from_words(words)).collect();
    sheet
}

/// M with another root capacity and another up capacity of cabinet 1.
fn m_with(root: u16, up: u16) -> Sheet {
    let mut sheet = m_records();
    sheet.cabinets[0].capacity = root;
    sheet.cabinets[1].up_capacity = up;
    sheet
}

/// M0 with services 2, 2, 0 and streams of 3 from the last to each of the others.
pub fn z() -> Sheet {
    let mut sheet = m_with(0, 6);
    sheet.services = vec![2, 2, 0];
    sheet.streams = vec![Stream::from_words([2, 0, 3]), Stream::from_words([2, 1, 3])];
    sheet
}

/// A root of capacity 5 and price 1 with one child of all zeros, and one service of 3.
fn one_child() -> Sheet {
    Sheet {
        services: vec![3],
        cabinets: vec![
            Cabinet::from_words([NO_PARENT, 5, 1, 0, 0, 0, 0]),
            Cabinet::default(),
        ],
        ..Sheet::default()
    }
}

/// No service, one cabinet, no stream: 30 bytes.
fn least() -> Sheet {
    Sheet {
        cabinets: vec![Cabinet::from_words([NO_PARENT, 0, 0, 0, 0, 0, 0])],
        ..Sheet::default()
    }
}

/// All measured roads.
pub fn roads() -> Vec<Measured> {
    let road = |name, sheet: Sheet, refusal, cost, count, plan| Measured {
        name,
        sheet: tight(&sheet),
        refusal,
        cost,
        count,
        plan,
    };
    let nowhere = m_barred(&[[0, 0], [0, 1], [0, 2]]);
    vec![
        road("M", m_records(), 0, 15, Some(18), &[0, 1]),
        road("M, root capacity 3", m_with(3, 6), 0, 15, Some(17), &[0, 1]),
        road("M0", m_with(0, 6), 0, 15, Some(12), &[1, 2]),
        road("M0, up capacity 5", m_with(0, 5), 0, 15, Some(12), &[1, 2]),
        road("M0, up capacity 4", m_with(0, 4), 12, 0, Some(10), &[]),
        road("M0, up capacity 3", m_with(0, 3), 12, 0, Some(10), &[]),
        road("M0, up capacity 2", m_with(0, 2), 12, 0, Some(10), &[]),
        road("Z", z(), 0, 15, Some(28), &[1, 2, 1]),
        road("root with one child", one_child(), 0, 3, Some(3), &[0]),
        road("30 bytes", least(), 0, 0, Some(0), &[]),
        road(
            "M, (0,0) barred",
            m_barred(&[[0, 0]]),
            0,
            15,
            Some(15),
            &[1, 2],
        ),
        road("M, service 0 barred", nowhere, 12, 0, Some(12), &[]),
    ]
}
