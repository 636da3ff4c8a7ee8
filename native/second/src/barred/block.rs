//! Where the barred block may lie and how long it may be: refusal 18.

use super::{Directed, lent};
use crate::build::{Layout, build, put};
use crate::limits::{COUNT, MAX_PAIRS, NO_PARENT, PAIR};
use crate::measured::{m_barred, m_records};
use crate::sheet::{Cabinet, Sheet};

/// One pair, which is enough where only the place of the block matters.
const ONE: [[u16; 2]; 1] = [[0, 0]];
/// What the planner answers for M with that pair barred, once or more often.
const WITH_ONE: [u64; 3] = [0, 15, 15];
/// What it answers for M with nothing barred.
const WITH_NONE: [u64; 3] = [0, 15, 18];

/// M with these pairs in a block at this offset, in a sheet of this length.
fn m_at(pairs: &[[u16; 2]], offset: usize, length: usize) -> Vec<u8> {
    let layout = Layout {
        offsets: [16, 20, 62, offset],
        length,
        gap: 0,
    };
    build(&m_barred(pairs), &layout)
}

pub fn all() -> Vec<Directed> {
    [
        in_header(),
        first_and_far(),
        count_word(),
        last_byte(),
        many_pairs(),
        beside_others(),
        inside_others(),
        empty_streams(),
        no_services(),
        past_16_bits(),
    ]
    .into_iter()
    .flatten()
    .collect()
}

/// The eighth word from 1 to 15. Most of these places hold a small number here, and the other
/// blocks lie far behind, so that the start alone is wrong.
fn in_header() -> Vec<Directed> {
    let at = |offset| {
        let layout = Layout {
            offsets: [0x0d00, 0x0e00, 0x0f00, offset],
            length: 0x1000,
            gap: 0,
        };
        build(&m_records(), &layout)
    };
    (1..16)
        .map(|offset| Directed::refused("an eighth word from 1 to 15", at(offset), 18))
        .collect()
}

/// Right behind the header, at an odd offset, and where the low byte of the offset is 0.
fn first_and_far() -> Vec<Directed> {
    let first = |name, gap| {
        let sheet = m_barred(&ONE);
        let layout = Layout::spread(&sheet, &[3, 0, 1, 2], [gap, 0, 0, 0, 0]);
        Directed::accepted(name, build(&sheet, &layout), &ONE, WITH_ONE)
    };
    vec![
        first("a block at 16", 0),
        first("a block at 17", 1),
        first("a block at 256", 240),
    ]
}

/// Not even the count word fits, or nothing but the count word.
fn count_word() -> Vec<Directed> {
    let refused = |name, offset, length| Directed::refused(name, m_at(&[], offset, length), 18);
    vec![
        refused("a block on the last byte", 68, 69),
        refused("a block at the length", 68, 68),
        refused("a block past the length", 69, 68),
        refused("a block at 65,534", 65_534, 68),
        refused("a block at 65,535", 65_535, 68),
        Directed::accepted("a count of 0", m_at(&[], 68, 70), &[], WITH_NONE),
        Directed::refused("pairs without a byte", m_at(&ONE, 68, 70), 18),
    ]
}

/// The block ends at the length, or one byte past it.
fn last_byte() -> Vec<Directed> {
    let two = [[0, 0]; 2];
    vec![
        Directed::accepted("a pair at the end", m_at(&ONE, 68, 74), &ONE, WITH_ONE),
        Directed::refused("a pair cut by one byte", m_at(&ONE, 68, 73), 18),
        Directed::accepted("two pairs at the end", m_at(&two, 68, 78), &two, WITH_ONE),
        Directed::refused("two pairs cut by one byte", m_at(&two, 68, 77), 18),
    ]
}

/// 2,000 pairs and more.
fn many_pairs() -> Vec<Directed> {
    let whole = |pairs: &[[u16; 2]]| m_at(pairs, 68, 68 + COUNT + PAIR * pairs.len());
    let mut most = vec![[0, 0]; MAX_PAIRS];
    let same = Directed::accepted("2,000 pairs", whole(&most), &most, WITH_ONE);
    most[MAX_PAIRS - 2..].copy_from_slice(&[[0, 1], [0, 2]]);
    let last = whole(&most);
    let last = Directed::accepted("the last of 2,000 pairs", last, &most, [12, 0, 12]);
    most.push([0, 0]);
    let mut all = vec![
        same,
        last,
        Directed::refused("2,001 pairs", whole(&most), 18),
    ];
    // In 16 bits the size of the first two is 2 and 6.
    for count in [16_384, 16_385, 32_768, 65_535] {
        let mut sheet = m_at(&ONE, 68, 74);
        put(&mut sheet, 68, [count]);
        all.push(Directed::refused("far too many pairs", sheet, 18));
    }
    all
}

/// Before and behind each other block, with and without one byte in both.
fn beside_others() -> Vec<Directed> {
    let others = [(30, 34), (60, 102), (130, 136)];
    let mut all = vec![];
    for (pairs, answer) in [(&ONE[..], WITH_ONE), (&[], WITH_NONE)] {
        let size = COUNT + PAIR * pairs.len();
        let at = |offset| {
            let layout = Layout {
                offsets: [30, 60, 130, offset],
                length: 150,
                gap: 0,
            };
            build(&m_barred(pairs), &layout)
        };
        for (start, end) in others {
            for offset in [start - size, end] {
                let touching = "a block that touches another";
                all.push(Directed::accepted(touching, at(offset), pairs, answer));
            }
            for offset in [start + 1 - size, end - 1] {
                let sharing = "a block that shares one byte";
                all.push(Directed::refused(sharing, at(offset), 18));
            }
        }
    }
    all
}

/// Inside another block, or around one. The link fields of the root are a count of 0.
fn inside_others() -> Vec<Directed> {
    let layout = Layout {
        offsets: [40, 200, 250, 20],
        length: 256,
        gap: 0,
    };
    let around = build(&m_barred(&[[0, 0]; 30]), &layout);
    vec![
        Directed::refused("a count of 0 among the cabinets", m_at(&[], 26, 68), 18),
        Directed::refused("a block around the services", around, 18),
    ]
}

/// The streams' block without a byte at every place in the barred block.
fn empty_streams() -> Vec<Directed> {
    let mut sheet = m_barred(&ONE);
    sheet.streams.clear();
    let at = |offset| {
        let layout = Layout {
            offsets: [16, 20, offset, 62],
            length: 68,
            gap: 0,
        };
        let bytes = build(&sheet, &layout);
        Directed::accepted("no stream, inside the pairs", bytes, &ONE, [0, 6, 15])
    };
    (62..=68).map(at).collect()
}

/// No service and no stream, whose blocks lie inside a count of 0; and a pair all the same.
fn no_services() -> Vec<Directed> {
    let mut sheet = Sheet {
        cabinets: vec![Cabinet::from_words([NO_PARENT, 0, 0, 0, 0, 0, 0])],
        ..Sheet::default()
    };
    let layout = Layout {
        offsets: [31, 16, 31, 30],
        length: 32,
        gap: 0,
    };
    let accepted = Directed {
        name: "no service, inside a count of 0",
        sheet: build(&sheet, &layout),
        read: Ok(vec![]),
        checks: vec![(vec![], Ok(0)), (vec![0], Err(13))],
        plans: vec![(lent(0, 1), [0, 0, 0]), (lent(0, 0), [11, 0, 0])],
    };
    sheet.barred = m_barred(&ONE).barred;
    let pair = Directed::refused("no service, and a pair", crate::build::tight(&sheet), 19);
    vec![accepted, pair]
}

/// The longest sheet, and blocks whose end would be small in 16 bits.
fn past_16_bits() -> Vec<Directed> {
    let most = vec![[0, 0]; MAX_PAIRS];
    let long = |pairs: &[[u16; 2]], offset| m_at(pairs, offset, 65_535);
    let ends = "a block that ends at 65,535";
    let passes = "a block that passes 65,535";
    vec![
        Directed::accepted(ends, long(&[], 65_533), &[], WITH_NONE),
        Directed::accepted(ends, long(&ONE, 65_529), &ONE, WITH_ONE),
        Directed::accepted(ends, long(&most, 57_533), &most, WITH_ONE),
        Directed::refused(passes, long(&[], 65_534), 18),
        Directed::refused(passes, long(&ONE, 65_530), 18),
        Directed::refused(passes, long(&most, 57_534), 18),
        Directed::refused(passes, long(&most, 60_000), 18),
    ]
}
