//! Sheets in odd forms, written down one by one with their tidy copies.

use crate::build::{Layout, build};
use crate::limits::{CABINETS, NO_PARENT, SERVICES, STREAMS};
use crate::measured::{m, m_barred, m_records};
use crate::random::case::Origin;
use crate::random::{Case, Lent};
use crate::sheet::{Cabinet, Pair, Sheet, Stream};

/// A sheet and its tidy copy.
pub struct Copied {
    pub name: &'static str,
    pub sheet: Vec<u8>,
    pub copy: Vec<u8>,
}

impl Copied {
    fn new(name: &'static str, sheet: &Sheet, layout: &Layout, copy: &[u16]) -> Copied {
        Copied {
            name,
            sheet: build(sheet, layout),
            copy: copy.iter().flat_map(|w| w.to_le_bytes()).collect(),
        }
    }

    /// The sheet with its calls, to be compared. For the largest roads too little is lent.
    pub fn case(&self) -> Case {
        Case {
            origin: Origin::Directed(self.name),
            sheet: self.sheet.clone(),
            plans: vec![vec![0, 1], vec![]],
            tariffs: vec![],
            lent: vec![Lent {
                output: SERVICES,
                costs: 12,
                choices: 12,
            }],
        }
    }
}

/// All of them.
pub fn all() -> Vec<Copied> {
    let mut all = forms_of_m();
    all.extend(pairs_of_m());
    all.extend(without_records());
    all.extend(every_pair());
    all
}

/// The words of M with these barred pairs behind it, in a tidy copy of this length.
fn m_words(length: u16, pairs: &[[u16; 2]]) -> Vec<u16> {
    let bytes = m();
    let words = bytes.chunks(2).map(|b| u16::from_le_bytes([b[0], b[1]]));
    let mut words: Vec<u16> = words.collect();
    words[6] = length;
    if !pairs.is_empty() {
        words[7] = 68;
        words.push(pairs.len() as u16);
        words.extend(pairs.concat());
    }
    words
}

/// M with its blocks elsewhere.
fn forms_of_m() -> Vec<Copied> {
    let sheet = m_records();
    let form = |name, order: &[usize], gaps| {
        let layout = Layout {
            gap: 255,
            ..Layout::spread(&sheet, order, gaps)
        };
        Copied::new(name, &sheet, &layout, &m_words(68, &[]))
    };
    vec![
        form("M as it is", &[0, 1, 2], [0; 5]),
        form("M with gaps", &[0, 1, 2], [2, 4, 6, 0, 8]),
        form("M at odd offsets", &[0, 1, 2], [1, 2, 2, 0, 0]),
        form("M with a gap at the end", &[0, 1, 2], [0, 0, 0, 0, 1]),
        form("M with its streams first", &[2, 0, 1], [0; 5]),
        form("M backwards", &[2, 1, 0], [3, 1, 1, 0, 2]),
        form(
            "M in 65,535 bytes",
            &[1, 2, 0],
            [21_000, 22_000, 0, 0, 22_467],
        ),
        form("M with a count of 0", &[0, 1, 2, 3], [0; 5]),
        form("M with a count of 0 first", &[3, 0, 1, 2], [1, 1, 0, 0, 0]),
    ]
}

/// M with pairs in any order, some of them several times.
fn pairs_of_m() -> Vec<Copied> {
    let form = |name, pairs: &[[u16; 2]], length, right: &[[u16; 2]]| {
        let sheet = m_barred(pairs);
        let layout = Layout::spread(&sheet, &[3, 2, 0, 1], [5, 0, 1, 0, 0]);
        Copied::new(name, &sheet, &layout, &m_words(length, right))
    };
    let two = [[0, 1], [1, 0]];
    let all = [[0, 0], [0, 1], [0, 2], [1, 0], [1, 1], [1, 2]];
    let by_cabinet = [[0, 0], [1, 0], [0, 1], [1, 1], [0, 2], [1, 2]];
    let falling = [[1, 2], [1, 1], [1, 0], [0, 2], [0, 1], [0, 0]];
    vec![
        form("one pair", &[[0, 0]], 74, &[[0, 0]]),
        form("one pair 2,000 times", &[[1, 2]; 2000], 74, &[[1, 2]]),
        form("two pairs", &two, 78, &two),
        form("two pairs exchanged", &[[1, 0], [0, 1]], 78, &two),
        form("a pair around another", &[[1, 0], [0, 1], [1, 0]], 78, &two),
        form("pairs by cabinet", &by_cabinet, 94, &all),
        form("pairs falling", &falling, 94, &all),
        form("pairs twice", &[falling, by_cabinet].concat(), 94, &all),
    ]
}

/// No service or no stream, whose blocks lie anywhere.
fn without_records() -> Vec<Copied> {
    let root = Cabinet::from_words([NO_PARENT, 7, 0, 0, 0, 0, 0]);
    let bare = |services| Sheet {
        services,
        cabinets: vec![root],
        ..Sheet::default()
    };
    let form = |name, sheet: &Sheet, offsets, length, copy: &[u16]| {
        let layout = Layout {
            offsets,
            length,
            gap: 9,
        };
        Copied::new(name, sheet, &layout, copy)
    };
    let least = [0, 1, 0, 16, 16, 30, 30, 0, NO_PARENT, 7, 0, 0, 0, 0, 0];
    let one = [1, 1, 0, 16, 18, 32, 32, 0, 3, NO_PARENT, 7, 0, 0, 0, 0, 0];
    vec![
        form("no record", &bare(vec![]), [16, 16, 30, 0], 30, &least),
        form(
            "no record, late",
            &bare(vec![]),
            [40, 21, 16, 0],
            40,
            &least,
        ),
        form("none at all", &bare(vec![]), [30, 16, 17, 30], 32, &least),
        form("no stream", &bare(vec![3]), [31, 17, 16, 0], 33, &one),
        form(
            "no stream, late",
            &bare(vec![3]),
            [16, 18, 35, 33],
            35,
            &one,
        ),
    ]
}

/// The records of the largest road, but for its pairs.
fn largest() -> Sheet {
    let mut cabinets = vec![Cabinet::from_words([0, 10, 2, 0, 0, 0, 0]); CABINETS];
    cabinets[0] = Cabinet::from_words([NO_PARENT, 10, 1, 0, 0, 0, 0]);
    let stream = |k| Stream::from_words([k % 10, (k + 1) % 10, 100 - k]);
    Sheet {
        services: vec![1; SERVICES],
        cabinets,
        streams: (0..STREAMS as u16).map(stream).collect(),
        barred: vec![],
    }
}

/// The words of the largest road with these pairs, in a tidy copy of this length.
fn largest_words(length: u16, pairs: &[[u16; 2]]) -> Vec<u16> {
    let mut words = vec![10, 200, 100, 16, 36, 2_836, length, 3_436];
    words.extend([1; 10]);
    words.extend([NO_PARENT, 10, 1, 0, 0, 0, 0]);
    words.extend([0, 10, 2, 0, 0, 0, 0].repeat(199));
    words.extend((0..100).flat_map(|k| [k % 10, (k + 1) % 10, 100 - k]));
    words.push(pairs.len() as u16);
    words.extend(pairs.concat());
    words
}

/// 2,000 pairs of 10 services and 200 cabinets: all there are, in several orders, or 20 of them a
/// hundred times each.
fn every_pair() -> Vec<Copied> {
    let form = |name, order: &dyn Fn(u16) -> [u16; 2], length, right: &[[u16; 2]]| {
        let mut sheet = largest();
        sheet.barred = (0..2_000).map(|k| Pair::from_words(order(k))).collect();
        let layout = Layout::spread(&sheet, &[3, 1, 2, 0], [1, 2, 3, 4, 5]);
        Copied::new(name, &sheet, &layout, &largest_words(length, right))
    };
    let in_order = |k: u16| [k / 200, k % 200];
    let falling = |k| in_order(1_999 - k);
    let by_cabinet = |k| [k % 10, k / 10];
    // 1,737 and 2,000 have no factor in common.
    let mixed = |k| in_order((u32::from(k) * 1_737 % 2_000) as u16);
    let few = |k| [k / 10 % 10, 198 + k % 2];
    let all: Vec<[u16; 2]> = (0..2_000).map(in_order).collect();
    let twenty: Vec<[u16; 2]> = (0..20).map(|k| [k / 2, 198 + k % 2]).collect();
    vec![
        form("all pairs in order", &in_order, 11_438, &all),
        form("all pairs falling", &falling, 11_438, &all),
        form("all pairs by cabinet", &by_cabinet, 11_438, &all),
        form("all pairs mixed", &mixed, 11_438, &all),
        form("20 pairs a hundred times", &few, 3_518, &twenty),
    ]
}
