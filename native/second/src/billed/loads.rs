//! Loads of one link around whole blocks of 100.

use super::{Billed, road};

pub fn all() -> Vec<Billed> {
    let all = [
        one_stream(),
        up(),
        both_ways(),
        several_of_a_pair(),
        idle_streams(),
        no_stream_over_it(),
    ];
    all.into_iter().flatten().collect()
}

/// Service 0 on the root and service 1 on the cabinet under it, with these streams, at 30 cents a
/// block, 7 cents a unit of demand and a tax of 100 thousandths. The lines are up, down, and the
/// demands of 1 and 2, which make 7 and 14 cents. So the net is 21 cents and 30 for each block.
fn line(name: &'static str, words: &[[u16; 3]], links: [u64; 2], figures: [u64; 3]) -> Billed {
    let lines = [links[0], links[1], 7, 14];
    let sheet = road(&[1, 2], &[0], words);
    Billed::made(name, &sheet, &[0, 1], [30, 7, 100], &lines, figures)
}

/// With its framing a stream of 97 is a load of 99, and so on. The tax is 100 thousandths of 51,
/// 81, 111, 2,991 or 3,021 cents, which leaves a tenth of a cent each time.
fn one_stream() -> Vec<Billed> {
    let road = |name, demand, down, figures| line(name, &[[0, 1, demand]], [0, down], figures);
    vec![
        road("a load of 3", 1, 30, [51, 5, 56]),
        road("a load of 99", 97, 30, [51, 5, 56]),
        road("a load of 100", 98, 30, [51, 5, 56]),
        road("a load of 101", 99, 60, [81, 8, 89]),
        road("a load of 199", 197, 60, [81, 8, 89]),
        road("a load of 200", 198, 60, [81, 8, 89]),
        road("a load of 201", 199, 90, [111, 11, 122]),
        road("a load of 9,899", 9_897, 2_970, [2_991, 299, 3_290]),
        road("a load of 9,900", 9_898, 2_970, [2_991, 299, 3_290]),
        road("a load of 9,901", 9_899, 3_000, [3_021, 302, 3_323]),
        road("a load of 10,000", 9_998, 3_000, [3_021, 302, 3_323]),
    ]
}

/// The same upwards.
fn up() -> Vec<Billed> {
    let road = |name, demand, up, figures| line(name, &[[1, 0, demand]], [up, 0], figures);
    vec![
        road("a load of 99 up", 97, 30, [51, 5, 56]),
        road("a load of 100 up", 98, 30, [51, 5, 56]),
        road("a load of 101 up", 99, 60, [81, 8, 89]),
        road("a load of 10,000 up", 9_998, 3_000, [3_021, 302, 3_323]),
    ]
}

/// Each direction starts blocks of its own: loads of 25 up and 25 down are two blocks, though 50
/// one way would be one.
fn both_ways() -> Vec<Billed> {
    let road = |name, [down, up]: [u16; 2], links, figures| {
        line(name, &[[0, 1, down], [1, 0, up]], links, figures)
    };
    vec![
        road("101 up and 99 down", [97, 99], [60, 30], [111, 11, 122]),
        road("99 up and 101 down", [99, 97], [30, 60], [111, 11, 122]),
        road("100 up and down", [98, 98], [30, 30], [81, 8, 89]),
        road("62 up and down", [60, 60], [30, 30], [81, 8, 89]),
        road("25 up and down", [23, 23], [30, 30], [81, 8, 89]),
        road(
            "10,000 up and down",
            [9_998, 9_998],
            [3_000, 3_000],
            [6_021, 602, 6_623],
        ),
    ]
}

/// The loads of several streams are summed up before blocks are counted, and each has its framing.
fn several_of_a_pair() -> Vec<Billed> {
    let road = |name, demands: &[u16], down, figures| {
        let words: Vec<[u16; 3]> = demands.iter().map(|&demand| [0, 1, demand]).collect();
        line(name, &words, [0, down], figures)
    };
    vec![
        road("50 and 50 make 100", &[48, 48], 30, [51, 5, 56]),
        road("50 and 51 make 101", &[48, 49], 60, [81, 8, 89]),
        road("three of 34 make 102", &[32; 3], 60, [81, 8, 89]),
        road("twenty of 5 make 100", &[3; 20], 30, [51, 5, 56]),
        road(
            "twenty of 5 and 3",
            &[&[3; 20][..], &[1]].concat(),
            60,
            [81, 8, 89],
        ),
        road("a hundred of 3", &[1; 100], 90, [111, 11, 122]),
        road("a hundred of 100", &[98; 100], 3_000, [3_021, 302, 3_323]),
    ]
}

/// A stream of demand 0 has no framing, and so is no load.
fn idle_streams() -> Vec<Billed> {
    let hundred = [&[[0, 1, 98]][..], &[[0, 1, 0]; 99]].concat();
    vec![
        line("a load of 0", &[[0, 1, 0]], [0, 0], [21, 2, 23]),
        line(
            "a hundred loads of 0",
            &[[1, 0, 0]; 100],
            [0, 0],
            [21, 2, 23],
        ),
        line("100 among loads of 0", &hundred, [0, 30], [51, 5, 56]),
    ]
}

/// A stream whose ends share a cabinet runs along no link.
fn no_stream_over_it() -> Vec<Billed> {
    let bill = |name, plan: [u16; 2], words: &[[u16; 3]]| {
        let sheet = road(&[1, 2], &[0], words);
        let (lines, figures) = ([0, 0, 7, 14], [21, 2, 23]);
        Billed::made(name, &sheet, &plan, [30, 7, 100], &lines, figures)
    };
    vec![
        bill("no stream", [0, 1], &[]),
        bill("both on the root", [0, 0], &[[0, 1, 99], [1, 0, 5]]),
        bill("both on the cabinet", [1, 1], &[[0, 1, 99], [1, 0, 5]]),
    ]
}
