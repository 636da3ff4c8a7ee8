//! Capacities of one link that just suffice for the streams over it, or lack a unit.

use super::{Written, streams};
use crate::limits::NO_PARENT;
use crate::sheet::{Cabinet, Sheet, Stream};

pub fn all() -> Vec<Written> {
    let all = [
        one_stream(),
        largest_streams(),
        two_streams(),
        both_ways(),
        idle_streams(),
        hundred_streams(),
        idle_among_hundred(),
        several_services(),
        five_and_five(),
    ];
    all.into_iter().flatten().collect()
}

/// A root that has room for service 0 or 1, and one cabinet that has room for service 1 alone. So
/// (0,1) is the only plan that overfills no cabinet. It costs 3, and for each unit of demand 3 up
/// and 5 down.
pub fn line(words: &[[u16; 3]], [up, down]: [u16; 2]) -> Sheet {
    Sheet {
        services: vec![2, 1],
        cabinets: vec![
            Cabinet::from_words([NO_PARENT, 2, 1, 0, 0, 0, 0]),
            Cabinet::from_words([0, 1, 1, up, 3, down, 5]),
        ],
        streams: streams(words),
        barred: vec![],
    }
}

/// Before the only link there is the root: no service, or either of the two.
const COUNT: u64 = 4 + 2 + 2;

/// These capacities suffice, at this cost.
fn fits(name: &'static str, words: &[[u16; 3]], capacities: [u16; 2], cost: u64) -> Written {
    let sheet = line(words, capacities);
    Written::planned(name, sheet, [cost, COUNT], &[0, 1])
}

/// These capacities do not suffice.
fn lacks(name: &'static str, words: &[[u16; 3]], capacities: [u16; 2]) -> Written {
    Written::refused(name, line(words, capacities), COUNT, &[0, 1])
}

fn one_stream() -> Vec<Written> {
    let (down, up) = ([[0, 1, 1]], [[1, 0, 1]]);
    vec![
        fits("a stream of 1 down a line of 3", &down, [0, 3], 8),
        lacks("a stream of 1 down a line of 2", &down, [3, 2]),
        lacks("a stream of 1 down a line of 1", &down, [3, 1]),
        fits("a stream of 1 up a line of 3", &up, [3, 0], 6),
        lacks("a stream of 1 up a line of 2", &up, [2, 3]),
        lacks("a stream of 1 up a line of 1", &up, [1, 3]),
    ]
}

/// The largest stream that the largest capacity suffices for, and larger ones.
fn largest_streams() -> Vec<Written> {
    let of = |demand| [[0, 1, demand]];
    vec![
        fits("a stream of 9,998", &of(9_998), [0, 10_000], 49_993),
        lacks("a stream of 9,998, one short", &of(9_998), [10_000, 9_999]),
        lacks("a stream of 9,999", &of(9_999), [10_000; 2]),
        lacks("a stream of 10,000", &of(10_000), [10_000; 2]),
    ]
}

/// Streams of one pair, each with its framing.
fn two_streams() -> Vec<Written> {
    let down = [[0, 1, 3], [0, 1, 4]];
    let same = [[1, 0, 3]; 2];
    vec![
        fits("two streams down", &down, [0, 11], 38),
        lacks("two streams down, one short", &down, [11, 10]),
        lacks("two streams down, framed once", &down, [11, 9]),
        fits("two equal streams up", &same, [10, 0], 21),
        lacks("two equal streams up, one short", &same, [9, 10]),
        lacks("two equal streams up, framed once", &same, [8, 10]),
    ]
}

/// A stream each way, each with its framing in its own direction.
fn both_ways() -> Vec<Written> {
    let both = [[0, 1, 3], [1, 0, 4]];
    vec![
        fits("a stream each way", &both, [6, 5], 30),
        lacks("a stream each way, one short down", &both, [6, 4]),
        lacks("a stream each way, one short up", &both, [5, 5]),
        lacks("a stream each way, more room down", &both, [4, 9]),
        lacks("a stream each way, more room up", &both, [9, 3]),
    ]
}

/// Streams of demand 0 have no framing.
fn idle_streams() -> Vec<Written> {
    let both = [[0, 1, 0], [1, 0, 0]];
    let beside = [[0, 1, 0], [0, 1, 1], [1, 0, 0]];
    vec![
        fits("streams of 0 on a line of 0", &both, [0, 0], 3),
        fits("100 streams of 0", &[[0, 1, 0]; 100], [0, 0], 3),
        fits("a stream of 0 beside one of 1", &beside, [0, 3], 8),
        lacks("a stream of 0 beside one of 1, short", &beside, [0, 2]),
    ]
}

fn hundred_streams() -> Vec<Written> {
    let of = |demand| [[0, 1, demand]; 100];
    let half = |k| if k % 2 == 0 { [0, 1, 1] } else { [1, 0, 1] };
    let halves: Vec<[u16; 3]> = (0..100).map(half).collect();
    vec![
        fits("100 streams of 1", &of(1), [0, 300], 503),
        lacks("100 streams of 1, one short", &of(1), [300, 299]),
        fits("100 streams of 98", &of(98), [0, 10_000], 49_003),
        lacks("100 streams of 98, one short", &of(98), [10_000, 9_999]),
        lacks("100 streams of 99", &of(99), [10_000; 2]),
        fits("50 streams each way", &halves, [150, 150], 403),
        lacks("50 streams each way, one short up", &halves, [149, 150]),
        lacks("50 streams each way, one short down", &halves, [150, 149]),
    ]
}

/// Every fifth stream and the one after it of demand 0, the other 60 of demand 1.
fn idle_among_hundred() -> Vec<Written> {
    let words = |k| [0, 1, u16::from(k % 5 > 1)];
    let some: Vec<[u16; 3]> = (0..100).map(words).collect();
    vec![
        fits("60 streams of 1, 40 of 0", &some, [0, 180], 303),
        lacks("60 streams of 1, 40 of 0, one short", &some, [180, 179]),
    ]
}

/// Service 0 fits on the root alone and leaves no room there, so that 1 and 2 are under it. Before
/// the link all sets can be placed that leave 0 out, and 0 alone.
fn fan(words: &[[u16; 3]], [up, down]: [u16; 2]) -> Sheet {
    Sheet {
        services: vec![4, 1, 1],
        cabinets: vec![
            Cabinet::from_words([NO_PARENT, 4, 1, 0, 0, 0, 0]),
            Cabinet::from_words([0, 2, 1, up, 3, down, 5]),
        ],
        streams: streams(words),
        barred: vec![],
    }
}

/// One service sends to two others, or two to one: each stream has its framing.
fn several_services() -> Vec<Written> {
    const COUNT: u64 = 8 + 4 + 4 + 2 + 4;
    let (down, up) = ([[0, 1, 1], [0, 2, 1]], [[1, 0, 1], [2, 0, 1]]);
    let fits = |name, words, capacities, cost| {
        Written::planned(name, fan(words, capacities), [cost, COUNT], &[0, 1, 1])
    };
    let lacks =
        |name, words, capacities| Written::refused(name, fan(words, capacities), COUNT, &[0, 1, 1]);
    vec![
        fits("one sends to two", &down, [0, 6], 16),
        lacks("one sends to two, one short", &down, [6, 5]),
        lacks("one sends to two, framed once", &down, [6, 4]),
        fits("two send to one", &up, [6, 0], 12),
        lacks("two send to one, one short", &up, [5, 6]),
        lacks("two send to one, framed once", &up, [4, 6]),
    ]
}

/// A stream of 1 from each of ten services to each other, five of them on the root and five under
/// it: 25 cross each way. Up to five of the ten can be placed on the root.
fn five_and_five() -> Vec<Written> {
    const COUNT: u64 = 1_024 + 10 * 512 + 45 * 256 + 120 * 128 + 210 * 64 + 252 * 32;
    let stream = |k: u16| Stream::from_words([k / 9, (k / 9 + k % 9 + 1) % 10, 1]);
    let sheet = |[up, down]: [u16; 2]| Sheet {
        services: vec![1; 10],
        cabinets: vec![
            Cabinet::from_words([NO_PARENT, 5, 1, 0, 0, 0, 0]),
            Cabinet::from_words([0, 5, 1, up, 3, down, 5]),
        ],
        streams: (0..90).map(stream).collect(),
        barred: vec![],
    };
    let plan = [0, 0, 0, 0, 0, 1, 1, 1, 1, 1];
    let lacks = |name, capacities| Written::refused(name, sheet(capacities), COUNT, &plan);
    vec![
        Written::planned("25 each way", sheet([75; 2]), [210, COUNT], &plan),
        lacks("25 each way, one short up", [74, 75]),
        lacks("25 each way, one short down", [75, 74]),
    ]
}
