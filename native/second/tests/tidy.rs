//! The tidy copy: its bytes, which sheets have equal ones, and when there is none.

use second::build::{put, tight};
use second::limits::{LONGEST_COPY, NO_PARENT};
use second::measured::{m_barred, m_records, roads};
use second::tidy::in_order;
use second::{Cabinet, Layout, Pair, Sheet, Stream, build, copies, read, tidy};

/// What an output of enough bytes holds after the call, up to the length that it answers.
fn tidied(sheet: &[u8]) -> Vec<u8> {
    let mut output = vec![170; LONGEST_COPY];
    let length = tidy(sheet, &mut output).expect("an accepted sheet");
    output.truncate(length);
    output
}

/// M0 byte by byte.
const M0: [u8; 68] = [
    2, 0, 3, 0, 1, 0, 16, 0, 20, 0, 62, 0, 68, 0, 0, 0, // header
    2, 0, 2, 0, // services
    255, 255, 0, 0, 5, 0, 0, 0, 0, 0, 0, 0, 0, 0, // cabinets
    0, 0, 3, 0, 1, 0, 6, 0, 2, 0, 6, 0, 1, 0, //
    0, 0, 3, 0, 2, 0, 2, 0, 1, 0, 6, 0, 1, 0, //
    0, 0, 1, 0, 3, 0, // stream
];

/// M with (0,2) and (1,0) barred, byte by byte.
const M_BARRED: [u8; 78] = [
    2, 0, 3, 0, 1, 0, 16, 0, 20, 0, 62, 0, 78, 0, 68, 0, // header
    2, 0, 2, 0, // services
    255, 255, 4, 0, 5, 0, 0, 0, 0, 0, 0, 0, 0, 0, // cabinets
    0, 0, 3, 0, 1, 0, 6, 0, 2, 0, 6, 0, 1, 0, //
    0, 0, 3, 0, 2, 0, 2, 0, 1, 0, 6, 0, 1, 0, //
    0, 0, 1, 0, 3, 0, // stream
    2, 0, 0, 0, 2, 0, 1, 0, 0, 0, // barred pairs
];

/// A service, a root with one child, no stream and a pair, byte by byte.
const NO_STREAM: [u8; 52] = [
    1, 0, 2, 0, 0, 0, 16, 0, 18, 0, 46, 0, 52, 0, 46, 0, // header
    16, 39, // service
    255, 255, 1, 0, 2, 0, 0, 0, 0, 0, 0, 0, 0, 0, // cabinets
    0, 0, 3, 0, 4, 0, 5, 0, 6, 0, 7, 0, 8, 0, //
    1, 0, 0, 0, 1, 0, // barred pair
];

#[test]
fn m0_in_every_order() {
    let mut sheet = m_records();
    sheet.cabinets[0].capacity = 0;
    for order in [
        [0, 1, 2],
        [0, 2, 1],
        [1, 0, 2],
        [1, 2, 0],
        [2, 0, 1],
        [2, 1, 0],
    ] {
        for gaps in [[0; 5], [1, 0, 0, 0, 0], [7, 1, 0, 0, 300], [0, 3, 2, 0, 1]] {
            let layout = Layout::spread(&sheet, &order, gaps);
            assert_eq!(tidied(&build(&sheet, &layout)), M0);
        }
    }
}

#[test]
fn pairs_in_any_order_and_number() {
    for pairs in [
        &[[0, 2], [1, 0]][..],
        &[[1, 0], [0, 2]],
        &[[1, 0], [1, 0], [0, 2], [1, 0], [0, 2]],
    ] {
        let sheet = m_barred(pairs);
        for order in [[0, 1, 2, 3], [3, 1, 0, 2]] {
            let layout = Layout::spread(&sheet, &order, [0, 1, 0, 2, 0]);
            assert_eq!(tidied(&build(&sheet, &layout)), M_BARRED);
        }
    }
}

#[test]
fn no_stream() {
    let sheet = Sheet {
        services: vec![10_000],
        cabinets: vec![
            Cabinet::from_words([NO_PARENT, 1, 2, 0, 0, 0, 0]),
            Cabinet::from_words([0, 3, 4, 5, 6, 7, 8]),
        ],
        streams: vec![],
        barred: vec![Pair::from_words([0, 1]); 3],
    };
    let mut layout = Layout::spread(&sheet, &[1, 3, 0], [0, 4, 3, 0, 0]);
    for streams in [16, 17, layout.length] {
        layout.offsets[2] = streams;
        assert_eq!(tidied(&build(&sheet, &layout)), NO_STREAM);
    }
}

#[test]
fn written_down() {
    for copied in copies::all() {
        assert_eq!(tidied(&copied.sheet), copied.copy, "{}", copied.name);
        assert_eq!(tidied(&copied.copy), copied.copy, "{}", copied.name);
    }
}

#[test]
fn the_longest() {
    let long = copies::all();
    let long = long.iter().filter(|c| c.copy.len() == 11_438);
    let long: Vec<usize> = long.map(|c| read(&c.sheet).unwrap().barred.len()).collect();
    assert_eq!((long, LONGEST_COPY), (vec![2_000; 4], 11_438));
}

#[test]
fn measured_roads_are_their_own_copies() {
    for road in roads() {
        assert_eq!(tidied(&road.sheet), road.sheet, "{}", road.name);
    }
}

/// The bytes behind the copy stay, and one byte less than the copy is 21.
#[test]
fn outputs_of_every_length() {
    let sheet = build(
        &m_barred(&[[1, 0], [0, 2]]),
        &Layout {
            offsets: [40, 51, 20, 94],
            length: 120,
            gap: 7,
        },
    );
    for length in 0..200 {
        let mut output: Vec<u8> = (0..length).map(|k| 200 - k as u8).collect();
        let mut right = output.clone();
        let answer = tidy(&sheet, &mut output);
        if length < 78 {
            assert_eq!(answer, Err(21));
        } else {
            assert_eq!(answer, Ok(78));
            right[..78].copy_from_slice(&M_BARRED);
        }
        assert_eq!(output, right);
    }
}

#[test]
fn refusals_of_the_reader_come_before_21() {
    let refused = |change: &dyn Fn(&mut Vec<u8>)| {
        let mut sheet = tight(&m_barred(&[[0, 0]]));
        change(&mut sheet);
        [0, 73, 74, 500].map(|length| {
            let mut output = vec![5; length];
            let refusal = tidy(&sheet, &mut output).err();
            assert_eq!(output == vec![5; length], refusal.is_some());
            refusal
        })
    };
    let word = |at, word| refused(&move |sheet: &mut Vec<u8>| put(sheet, at, [word]));
    assert_eq!(refused(&|sheet| sheet.truncate(15)), [Some(1); 4]);
    assert_eq!(word(0, 11), [Some(2); 4]);
    assert_eq!(word(12, 75), [Some(3); 4]);
    assert_eq!(word(6, 15), [Some(4); 4]);
    assert_eq!(word(6, 19), [Some(5); 4]);
    assert_eq!(word(16, 10_001), [Some(6); 4]);
    assert_eq!(word(20, 0), [Some(7); 4]);
    assert_eq!(word(62, 1), [Some(8); 4]);
    assert_eq!(word(26, 1), [Some(9); 4]);
    assert_eq!(word(14, 15), [Some(18); 4]);
    assert_eq!(word(70, 2), [Some(19); 4]);
    assert_eq!(refused(&|_| {}), [Some(21), Some(21), None, None]);
}

/// Each record of M, with streams and pairs, changed in each field.
#[test]
fn one_field_makes_another_copy() {
    let mut sheet = m_barred(&[[0, 0], [1, 1]]);
    sheet.streams.push(Stream::from_words([1, 0, 4]));
    let first = tidied(&tight(&sheet));
    let changes: [fn(&mut Sheet); 16] = [
        |m| m.services[0] = 3,
        |m| m.services[1] = 3,
        |m| m.cabinets[2].parent = 1,
        |m| m.cabinets[0].capacity = 5,
        |m| m.cabinets[1].price = 2,
        |m| m.cabinets[1].up_capacity = 7,
        |m| m.cabinets[1].up_price = 3,
        |m| m.cabinets[2].down_capacity = 7,
        |m| m.cabinets[2].down_price = 2,
        |m| (m.streams[0].from, m.streams[0].to) = (1, 0),
        |m| m.streams[1].demand = 5,
        |m| m.barred[0].cabinet = 1,
        |m| m.barred[1].service = 0,
        |m| m.barred.truncate(1),
        |m| m.barred.push(Pair::from_words([1, 0])),
        |m| m.streams.swap(0, 1),
    ];
    for (number, change) in changes.into_iter().enumerate() {
        let mut changed = sheet.clone();
        change(&mut changed);
        assert_ne!(tidied(&tight(&changed)), first, "change {number}");
    }
}

#[test]
fn pairs_as_a_set() {
    let pairs = [[3, 1], [0, 9], [3, 0], [0, 10], [3, 1], [256, 0], [2, 300]];
    let pairs = in_order(&pairs.map(Pair::from_words));
    let words: Vec<[u16; 2]> = pairs.iter().map(Pair::words).collect();
    let right = [[0, 9], [0, 10], [2, 300], [3, 0], [3, 1], [256, 0]];
    assert_eq!(words, right);
}
