//! Spans that are written down one by one, with what is given for them.

use crate::build::tight;
use crate::limits::NO_PARENT;
use crate::measured::{m, m_barred, m_records};
use crate::random::Lent;
use crate::sheet::{Cabinet, Sheet};
use crate::span::Span;

/// A sheet, what is lent, a span, the number of a cabinet to edit, and the refusals of a planning
/// or keeping call and of an edit, 0 for none.
pub struct Spanned {
    pub name: &'static str,
    pub sheet: Vec<u8>,
    pub lent: Lent,
    pub span: Span,
    pub cabinet: usize,
    pub refusal: u64,
    pub edit_refusal: u64,
}

/// The lengths of output, cost table and choice table, and the first entry and number of entries.
type Numbers = ([usize; 3], [usize; 2]);

const MOST: usize = usize::MAX;

/// Spans of M, which needs 2 places and 12 entries, with the refusal of all three calls.
const OF_M: [(&str, Numbers, u64); 40] = [
    ("just enough, and nothing else", ([2, 12, 12], [0, 12]), 0),
    ("entries on all sides", ([2, 20, 21], [3, 14]), 0),
    ("at the end of the costs", ([2, 15, 20], [3, 12]), 0),
    ("at the end of the choices", ([3, 20, 15], [3, 12]), 0),
    ("longer, at the end of both", ([2, 20, 20], [1, 19]), 0),
    ("all of the costs", ([2, 13, 30], [0, 13]), 0),
    ("all of the choices", ([2, 30, 13], [0, 13]), 0),
    (
        "behind 2^16 entries",
        ([2, 65_560, 65_561], [65_539, 12]),
        0,
    ),
    (
        "2^16 entries and more",
        ([2, 65_560, 65_561], [3, 65_548]),
        0,
    ),
    ("all of the costs, too short", ([2, 11, 30], [0, 11]), 11),
    ("all of the choices, too short", ([2, 30, 11], [0, 11]), 11),
    ("one entry short", ([2, 20, 20], [3, 11]), 11),
    ("one short, from the start", ([2, 20, 20], [0, 11]), 11),
    ("no entry", ([2, 20, 20], [0, 0]), 11),
    ("no entry at the end", ([2, 20, 20], [20, 0]), 11),
    ("none at the end of the costs", ([2, 20, 25], [20, 0]), 11),
    ("none at the end of the choices", ([2, 25, 20], [20, 0]), 11),
    ("no entry past the end", ([2, 20, 20], [21, 0]), 24),
    ("no entry of no tables", ([2, 0, 0], [0, 0]), 11),
    ("one past both", ([2, 14, 14], [3, 12]), 24),
    ("one past the costs", ([2, 14, 20], [3, 12]), 24),
    ("one past the choices", ([2, 20, 14], [3, 12]), 24),
    ("longer than both", ([2, 20, 20], [0, 21]), 24),
    ("without costs", ([2, 0, 20], [3, 12]), 24),
    ("without choices", ([2, 20, 0], [3, 12]), 24),
    ("past both and too short", ([2, 20, 20], [10, 11]), 24),
    ("past both, a place short", ([1, 20, 20], [9, 12]), 10),
    ("too short, a place short", ([1, 20, 20], [9, 11]), 10),
    ("the largest first entry", ([2, 20, 20], [MOST, 0]), 24),
    ("the same with an entry", ([2, 20, 20], [MOST, 1]), 24),
    ("the same with enough", ([2, 20, 20], [MOST, 13]), 24),
    ("the largest number", ([2, 20, 20], [0, MOST]), 24),
    ("the same behind an entry", ([2, 20, 20], [1, MOST]), 24),
    ("the largest of both", ([2, 20, 20], [MOST, MOST]), 24),
    ("a sum of 2^64, far", ([2, 20, 20], [MOST - 11, 12]), 24),
    ("a sum of 2^64, long", ([2, 20, 20], [12, MOST - 11]), 24),
    (
        "a sum of 2^64, halves",
        ([2, 20, 20], [1 << 63, 1 << 63]),
        24,
    ),
    ("near in 32 bits", ([2, 20, 20], [1 << 32, 12]), 24),
    ("short in 32 bits", ([2, 20, 20], [0, (1 << 32) + 12]), 24),
    ("past both, without places", ([0, 20, 20], [MOST, MOST]), 10),
];

/// Spans of another road, with the number of the cabinet, the refusal of the first two calls, and
/// that of an edit.
type Rows = &'static [(&'static str, Numbers, usize, [u64; 2])];

/// A span that suffices for 2 services and 3 cabinets, and one that ends past a table.
const FITS: Numbers = ([2, 20, 21], [4, 12]);
const PAST: Numbers = ([2, 20, 21], [9, 12]);

/// Of the smallest road.
const OF_SMALLEST: Rows = &[
    ("one entry suffices", ([0, 3, 4], [1, 1]), 0, [0, 0]),
    ("one entry, the last", ([0, 3, 3], [2, 1]), 0, [0, 0]),
    ("one entry, past", ([0, 3, 3], [3, 1]), 0, [24, 24]),
    ("no entry for one", ([0, 3, 3], [3, 0]), 0, [11, 11]),
];

/// Of a chain, whose root is edited.
const OF_CHAIN: Rows = &[
    ("a chain", FITS, 0, [0, 0]),
    ("a chain, further on", ([2, 30, 31], [15, 13]), 0, [0, 0]),
    ("a chain, at the end", ([3, 30, 30], [18, 12]), 0, [0, 0]),
];

/// Of M, with numbers of no cabinet.
const UNKNOWN: Rows = &[
    ("no such cabinet", FITS, 3, [0, 14]),
    ("no such cabinet, past", PAST, 3, [24, 24]),
    ("the largest cabinet, past", PAST, MOST, [24, 24]),
    (
        "no such cabinet, short",
        ([2, 20, 20], [9, 11]),
        3,
        [11, 11],
    ),
];

/// Of a road without a plan.
const OF_SHUT: Rows = &[
    ("no plan", FITS, 2, [12, 12]),
    ("no plan, past", PAST, 2, [24, 24]),
    ("no plan, past, no such cabinet", PAST, 3, [24, 24]),
];

/// Of sheets that the reader refuses.
const OF_CUT: Rows = &[("cut", FITS, 1, [3, 3]), ("cut, past", PAST, 1, [3, 3])];
const OF_PAIR: Rows = &[("a pair of no cabinet, past", PAST, 1, [19, 19])];

/// A road of no service and one cabinet.
fn smallest() -> Vec<u8> {
    tight(&Sheet {
        cabinets: vec![Cabinet::from_words([NO_PARENT, 3, 7, 0, 0, 0, 0])],
        ..Sheet::default()
    })
}

/// Two services that only the last of three cabinets in a row has room for.
fn chain() -> Vec<u8> {
    let cabinet = |parent, capacity| Cabinet::from_words([parent, capacity, 5, 0, 0, 0, 0]);
    tight(&Sheet {
        services: vec![2, 2],
        cabinets: vec![cabinet(NO_PARENT, 0), cabinet(0, 1), cabinet(1, 4)],
        ..Sheet::default()
    })
}

/// M without room.
fn shut() -> Vec<u8> {
    let mut sheet = m_records();
    sheet.cabinets.iter_mut().for_each(|c| c.capacity = 0);
    tight(&sheet)
}

/// All that are written down.
pub fn all() -> Vec<Spanned> {
    let unknown_pair = tight(&m_barred(&[[0, 3]]));
    let others = [
        (smallest(), OF_SMALLEST),
        (chain(), OF_CHAIN),
        (m(), UNKNOWN),
        (shut(), OF_SHUT),
        (m()[..67].to_vec(), OF_CUT),
        (unknown_pair, OF_PAIR),
    ];
    let mut all: Vec<Spanned> = OF_M
        .map(|(name, numbers, refusal)| Spanned::new(name, &m(), numbers, 1, [refusal; 2]))
        .into();
    for (sheet, rows) in others {
        let rows = rows.iter().copied();
        all.extend(rows.map(|(name, numbers, cabinet, refusals)| {
            Spanned::new(name, &sheet, numbers, cabinet, refusals)
        }));
    }
    all
}

impl Spanned {
    fn new(
        name: &'static str,
        sheet: &[u8],
        ([output, costs, choices], [first, number]): Numbers,
        cabinet: usize,
        [refusal, edit_refusal]: [u64; 2],
    ) -> Spanned {
        Spanned {
            name,
            sheet: sheet.to_vec(),
            lent: Lent {
                output,
                costs,
                choices,
            },
            span: Span { first, number },
            cabinet,
            refusal,
            edit_refusal,
        }
    }
}
