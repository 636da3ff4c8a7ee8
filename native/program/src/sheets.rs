//! The sheets that the programs are fed.

use second::build::tight;
use second::limits::{COUNT, NO_PARENT, PAIR};
use second::measured::{m, m_barred, roads};
use second::random::{Random, Size, case};
use second::{Cabinet, Layout, Sheet, Stream, barred, build, copies, framed, tied};

/// The sizes of the random roads.
const SIZE: Size = Size {
    services: 4,
    cabinets: 6,
};

/// Measured roads, sheets at the planning program's own limits, sheets with barred pairs, roads that
/// tie, roads that framing decides and sheets in odd forms which are written down, and so many
/// random cases.
pub fn all(cases: usize, seed: u64) -> Vec<(String, Vec<u8>)> {
    let mut sheets: Vec<(String, Vec<u8>)> = vec![];
    for road in roads() {
        sheets.push((format!("road {}", road.name), road.sheet));
    }
    for (name, sheet) in edges() {
        sheets.push((name.to_string(), sheet));
    }
    for directed in barred::all() {
        sheets.push((directed.name.to_string(), directed.sheet));
    }
    for road in tied::all() {
        sheets.push((format!("tied: {}", road.name), tight(&road.sheet)));
    }
    for road in framed::all() {
        sheets.push((format!("framed: {}", road.name), tight(&road.sheet)));
    }
    for copied in copies::all() {
        sheets.push((format!("copied: {}", copied.name), copied.sheet));
    }
    let mut random = Random::new(seed);
    for number in 0..cases {
        let case = case(&mut random, SIZE);
        let name = format!("random case {number}, {:?}", case.origin);
        sheets.push((name, case.sheet));
    }
    sheets
}

/// M with unused bytes up to this length, and a length word that says so.
fn padded(length: usize) -> Vec<u8> {
    let sheet = second::measured::m_records();
    let layout = Layout {
        length,
        ..Layout::tight(&sheet)
    };
    build(&sheet, &layout)
}

/// M with as many pairs as there is room for behind it, in a sheet of this length.
fn pairs(length: usize) -> Vec<u8> {
    let room = length - m().len() - COUNT;
    let sheet = m_barred(&vec![[0, 0]; room / PAIR]);
    let layout = Layout {
        length,
        ..Layout::tight(&sheet)
    };
    build(&sheet, &layout)
}

/// A star with so many services of demand 1 and cabinets of capacity 3.
fn star(r: usize, s: usize) -> Vec<u8> {
    let mut sheet = Sheet {
        services: vec![1; r],
        cabinets: vec![Cabinet::from_words([0, 3, 2, 4, 1, 4, 1]); s],
        ..Sheet::default()
    };
    sheet.cabinets[0] = Cabinet::from_words([NO_PARENT, 3, 1, 0, 0, 0, 0]);
    if r > 1 {
        sheet.streams.push(Stream::from_words([0, 1, 2]));
    }
    tight(&sheet)
}

/// Sheets at and just past the limits of bytes and entries.
fn edges() -> Vec<(&'static str, Vec<u8>)> {
    let mut too_long_and_wrong = padded(4097);
    too_long_and_wrong[0] = 99;
    vec![
        ("nothing", vec![]),
        ("15 bytes", m()[..15].to_vec()),
        ("4,096 bytes", padded(4096)),
        ("4,097 bytes", padded(4097)),
        ("4,096 bytes, mostly pairs", pairs(4096)),
        ("4,098 bytes, mostly pairs", pairs(4098)),
        ("4,097 bytes and wrong", too_long_and_wrong),
        ("5,000 zeros", vec![0; 5000]),
        ("200,000 bytes", vec![7; 200_000]),
        ("4,096 entries", star(10, 4)),
        ("5,120 entries", star(10, 5)),
        ("4,128 entries", star(5, 129)),
        ("200 cabinets, no service", star(0, 200)),
        ("200 cabinets, one service", star(1, 200)),
        ("no room", star(10, 3)),
    ]
}
