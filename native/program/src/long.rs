//! Inputs around the longest sheet, and the largest roads, for the program that takes them.

use crate::tidy::MOST_READ;
use second::build::put;
use second::measured::{m, m_records};
use second::random::layout::layout;
use second::random::road::{Kind, of_kind};
use second::random::{Random, Size};
use second::{Layout, build};

/// The lengths of inputs around the longest sheet, and far past it.
const LENGTHS: [usize; 4] = [MOST_READ - 1, MOST_READ, MOST_READ + 1, 200_000];
/// How many large roads there are.
const LARGE: usize = 20;

/// All of them.
pub fn all(seed: u64) -> Vec<(String, Vec<u8>)> {
    let mut inputs: Vec<(String, Vec<u8>)> = vec![];
    for length in LENGTHS {
        let forms = around_the_longest(length).into_iter();
        inputs.extend(forms.map(|(name, input)| (format!("{name}, {length} bytes"), input)));
    }
    let mut random = Random::new(seed);
    let size = Size {
        services: 0,
        cabinets: 1,
    };
    for number in 0..LARGE {
        let sheet = of_kind(&mut random, Kind::Large, size);
        let layout = layout(&mut random, &sheet);
        inputs.push((format!("large road {number}"), build(&sheet, &layout)));
    }
    inputs
}

/// Inputs of this length: M with unused bytes behind it and several length words, M at the end of
/// the longest sheet with bytes behind that, no services' number, and one byte again and again.
fn around_the_longest(length: usize) -> Vec<(&'static str, Vec<u8>)> {
    let padded = |word: usize| {
        let mut input = m();
        input.resize(length, 0);
        put(&mut input, 12, [word as u16]);
        input
    };
    let mut outside = padded(length);
    put(&mut outside, 0, [11]);
    vec![
        ("M", padded(68)),
        ("M, the length in 16 bits", padded(length)),
        ("M, the longest length", padded(65_535)),
        ("M, no length", padded(0)),
        ("M at the end", at_the_end(length)),
        ("11 services", outside),
        ("zeros", vec![0; length]),
        ("sevens", vec![7; length]),
    ]
}

/// The longest sheet with M in its last bytes, and behind it zeros up to this length.
fn at_the_end(length: usize) -> Vec<u8> {
    let sheet = m_records();
    let layout = Layout::spread(&sheet, &[2, 0, 1], [65_535 - 68, 0, 0, 0, 0]);
    let mut input = build(&sheet, &layout);
    input.resize(length, 0);
    input
}
