//! Each refusal, where it begins and which of several is given.

use second::build::{put, tight};
use second::limits::NO_PARENT;
use second::measured::{m, m_records};
use second::{Cabinet, Layout, Sheet, Stream, bound, build, check, group, plan, read, weigh};

/// M after its records were changed.
fn changed(change: impl Fn(&mut Sheet)) -> Result<Sheet, u64> {
    let mut sheet = m_records();
    change(&mut sheet);
    read(&tight(&sheet))
}

/// M after a word was changed.
fn with_word(at: usize, word: u16) -> Option<u64> {
    let mut bytes = m();
    put(&mut bytes, at, [word]);
    read(&bytes).err()
}

/// M in another layout.
fn laid(offsets: [usize; 3], length: usize) -> Option<u64> {
    let [services, cabinets, streams] = offsets;
    let layout = Layout {
        offsets: [services, cabinets, streams, 0],
        length,
        gap: 0,
    };
    read(&build(&m_records(), &layout)).err()
}

#[test]
fn one_to_three() {
    assert_eq!(read(&[]), Err(1));
    assert_eq!(read(&m()[..15]), Err(1));
    assert_eq!(read(&[0; 16]), Err(2));
    assert_eq!(with_word(0, 11), Some(2));
    assert_eq!(with_word(2, 0), Some(2));
    assert_eq!(with_word(2, 201), Some(2));
    assert_eq!(with_word(4, 101), Some(2));
    assert_eq!(with_word(12, 67), Some(3));
    assert_eq!(read(&m()[..67]), Err(3));
    let mut long = m();
    long.resize(65_536 + 68, 0);
    assert_eq!(read(&long), Err(3));
}

#[test]
fn four_and_five() {
    assert_eq!(laid([15, 20, 62], 68), Some(4));
    assert_eq!(laid([16, 20, 62], 67), Some(4));
    assert_eq!(laid([16, 20, 63], 68), Some(4));
    assert_eq!(laid([16, 20, 65_533], 68), Some(4));
    assert_eq!(laid([16, 19, 62], 68), Some(5));
    assert_eq!(laid([65, 20, 62], 69), Some(5));
    assert_eq!(laid([64, 20, 62], 68), Some(5));
    assert_eq!(laid([64, 22, 16], 68), None);
    assert_eq!(laid([17, 33, 81], 99), None);
}

#[test]
fn empty_blocks() {
    let mut sheet = m_records();
    sheet.streams.clear();
    let at = |offset| {
        let layout = Layout {
            offsets: [16, 20, offset, 0],
            length: 62,
            gap: 0,
        };
        read(&build(&sheet, &layout)).err()
    };
    assert_eq!(at(15), Some(4));
    assert_eq!(at(16), None);
    assert_eq!(at(17), None);
    assert_eq!(at(30), None);
    assert_eq!(at(62), None);
    assert_eq!(at(63), Some(4));
}

#[test]
fn six() {
    assert!(changed(|m| m.services[1] = 10_000).is_ok());
    assert_eq!(changed(|m| m.services[1] = 10_001), Err(6));
    assert_eq!(changed(|m| m.streams[0].demand = 10_001), Err(6));
    for c in 0..3 {
        for field in 1..7 {
            let set = |value| {
                move |m: &mut Sheet| {
                    let mut words = m.cabinets[c].words();
                    words[field] = value;
                    m.cabinets[c] = Cabinet::from_words(words);
                }
            };
            assert_eq!(changed(set(10_001)), Err(6));
            let root_link = c == 0 && field > 2;
            let expected = if root_link { Some(9) } else { None };
            assert_eq!(changed(set(10_000)).err(), expected);
        }
    }
}

#[test]
fn seven_and_eight() {
    assert_eq!(changed(|m| m.cabinets[0].parent = 0), Err(7));
    assert_eq!(changed(|m| m.cabinets[1].parent = 1), Err(7));
    assert_eq!(changed(|m| m.cabinets[1].parent = 2), Err(7));
    assert_eq!(changed(|m| m.cabinets[2].parent = NO_PARENT), Err(7));
    assert!(changed(|m| m.cabinets[2].parent = 1).is_ok());
    assert_eq!(changed(|m| m.streams[0].from = 2), Err(8));
    assert_eq!(changed(|m| m.streams[0].to = 2), Err(8));
    assert_eq!(changed(|m| m.streams[0].to = 0), Err(8));
}

#[test]
fn the_first_is_given() {
    let several = |m: &mut Sheet| {
        m.cabinets[0].up_price = 1;
        m.streams[0].to = 9;
        m.cabinets[1].parent = 1;
    };
    assert_eq!(changed(several), Err(7));
    let later = |m: &mut Sheet| {
        m.cabinets[1].parent = 1;
        m.streams[0].demand = 10_001;
    };
    assert_eq!(changed(later), Err(6));
}

#[test]
fn ten_to_twelve() {
    assert_eq!(plan(&m(), 1, 12, 12).refusal, 10);
    assert_eq!(plan(&m(), 1, 0, 0).refusal, 10);
    assert_eq!(plan(&m(), 2, 11, 12).refusal, 11);
    assert_eq!(plan(&m(), 2, 12, 11).refusal, 11);
    assert_eq!(plan(&m(), 2, 12, 12).refusal, 0);
    assert_eq!(plan(&m()[..67], 0, 0, 0).refusal, 3);
    let mut full = m_records();
    full.services = vec![10, 10];
    let answer = plan(&tight(&full), 2, 12, 12);
    assert_eq!((answer.refusal, answer.group, answer.cost), (12, 3, 0));
    assert!(answer.count > 0);
}

#[test]
fn thirteen_to_sixteen_in_order() {
    assert_eq!(check(&m(), &[9]), Err(13));
    assert_eq!(check(&m(), &[0, 0, 0]), Err(13));
    assert_eq!(check(&m(), &[0, 65_535]), Err(14));
    let mut both = m_records();
    both.services = vec![4, 4];
    assert_eq!(check(&tight(&both), &[2, 0]), Err(15));
    assert_eq!(check(&m()[..67], &[]), Err(3));
}

#[test]
fn streams_add_up() {
    let mut sheet = m_records();
    sheet.streams = vec![Stream::from_words([1, 0, 10_000]); 7];
    for cabinet in &mut sheet.cabinets[1..] {
        (cabinet.up_capacity, cabinet.down_capacity) = (10_000, 10_000);
    }
    assert_eq!(check(&tight(&sheet), &[0, 1]), Err(16));
    sheet.streams.truncate(1);
    assert_eq!(check(&tight(&sheet), &[0, 1]), Err(16));
    sheet.streams[0].demand = 9_998;
    assert_eq!(check(&tight(&sheet), &[0, 1]), Ok(20_008));
}

#[test]
fn groups() {
    let groups: Vec<u64> = (0..26).map(group).collect();
    let expected = [
        0, 1, 1, 1, 1, 1, 1, 1, 1, 1, 2, 2, 3, 4, 4, 4, 4, 0, 1, 1, 4, 2, 2, 4, 2, 0,
    ];
    assert_eq!(groups, expected);
}

#[test]
fn bounds() {
    assert_eq!(bound(2, 3), Ok(18));
    assert_eq!(bound(0, 1), Ok(0));
    assert_eq!(bound(10, 200), Ok(199 * 59_049));
    for r in 0..=10 {
        assert_eq!(bound(r, 2), Ok(3_u64.pow(r as u32)));
    }
    assert_eq!(bound(11, 1), Err(2));
    assert_eq!(bound(0, 0), Err(2));
    assert_eq!(bound(0, 201), Err(2));
}

#[test]
fn figures() {
    const MOST: u64 = 1_000_000_000_000_000;
    assert_eq!(weigh(10, 1, 2, 3), (6, 1));
    assert_eq!(weigh(5, 1, 2, 3), (5, 1));
    assert_eq!(weigh(u64::MAX, MOST, MOST, MOST), (3 * MOST, 1));
    assert_eq!(weigh(u64::MAX, 0, MOST + 1, 0), (u64::MAX, 1));
    assert_eq!(weigh(7, MOST + 1, 0, 0), (7, 0));
    assert_eq!(weigh(MOST + 9, 1, 1, u64::MAX), (MOST + 9, 1));
}
