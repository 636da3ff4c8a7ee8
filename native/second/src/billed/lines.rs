//! Which lines a bill has, and in which order.

use super::{Billed, road};
use crate::limits::{CABINETS, SERVICES};
use crate::measured::m_records;

pub fn all() -> Vec<Billed> {
    let all = [m(), few_lines(), longest(), star()];
    all.into_iter().flatten().collect()
}

/// M at 7 cents a block, 11 cents a unit of demand and a tax of 190 thousandths. The lines are 1
/// up, 1 down, 2 up, 2 down, and 22 cents for either service. The stream of 3 is a load of 5 on
/// each link between the two. The tax comes to 9.69 of 51 cents, 11.02 of 58 and 8.36 of 44.
fn m() -> Vec<Billed> {
    let bill = |name, plan: [u16; 2], links: [u64; 4], figures| {
        let lines = [&links[..], &[22, 22]].concat();
        let (sheet, tariff) = (m_records(), [7, 11, 190]);
        Billed::made(name, &sheet, &plan, tariff, &lines, figures)
    };
    vec![
        bill("M, down to 1", [0, 1], [0, 7, 0, 0], [51, 10, 61]),
        bill("M, down to 2", [0, 2], [0, 0, 0, 7], [51, 10, 61]),
        bill("M, up from 1", [1, 0], [7, 0, 0, 0], [51, 10, 61]),
        bill("M, from 1 to 2", [1, 2], [7, 0, 0, 7], [58, 11, 69]),
        bill("M, on the root", [0, 0], [0; 4], [44, 8, 52]),
    ]
}

/// No link, no service, and neither, at 9 cents a block, 10 cents a unit of demand and a tax of 190
/// thousandths: 13.3 of 70 cents, 9.5 of 50.
fn few_lines() -> Vec<Billed> {
    let bill = |name, services: &[u16], parents: &[u16], lines: &[u64], figures| {
        let sheet = road(services, parents, &[]);
        let plan = vec![0; services.len()];
        Billed::made(name, &sheet, &plan, [9, 10, 190], lines, figures)
    };
    vec![
        bill("no link", &[3, 4], &[], &[30, 40], [70, 13, 83]),
        bill("demands of 0", &[0, 5, 0], &[], &[0, 50, 0], [50, 10, 60]),
        bill("no service", &[], &[0, 1], &[0, 0, 0, 0], [0, 0, 0]),
        bill("neither", &[], &[], &[], [0, 0, 0]),
    ]
}

/// A chain of 200 cabinets with services of 10,000 on the first nine and on the last, and streams
/// of 9,998 from either end to the other: each of 398 directions has a load of 10,000.
fn longest() -> Vec<Billed> {
    let parents: Vec<u16> = (0..CABINETS as u16 - 1).collect();
    let sheet = road(
        &[10_000; SERVICES],
        &parents,
        &[[0, 9, 9_998], [9, 0, 9_998]],
    );
    let plan = [0, 1, 2, 3, 4, 5, 6, 7, 8, 199];
    let bill = |name, tariff, direction, service, figures| {
        let lines = [[direction; 398].to_vec(), vec![service; 10]].concat();
        Billed::made(name, &sheet, &plan, tariff, &lines, figures)
    };
    vec![
        // 398 lines of 100 blocks and 10 lines of 10,000 units, and as much again for tax.
        bill(
            "the largest bill",
            [10_000, 10_000, 1_000],
            1_000_000,
            100_000_000,
            [1_398_000_000, 1_398_000_000, 2_796_000_000],
        ),
        // 119,400 for the links and 100,000 for the services; the tax is 219.4.
        bill(
            "the longest bill",
            [3, 1, 1],
            300,
            10_000,
            [219_400, 219, 219_619],
        ),
        bill("the longest bill of 0", [0, 0, 1_000], 0, 0, [0, 0, 0]),
    ]
}

/// A star of 200 cabinets: service i is on 190 + i and sends 98 + 100 × i to the next one, the
/// last to the first, which starts i + 1 blocks up from the one and down to the other. At 2 cents a
/// block either way makes 110 cents, and at 3 cents a unit the services make 30. The tax of 25
/// thousandths is 6.25.
fn star() -> Vec<Billed> {
    let words: Vec<[u16; 3]> = (0..10).map(|i| [i, (i + 1) % 10, 98 + 100 * i]).collect();
    let sheet = road(&[1; SERVICES], &[0; CABINETS - 1], &words);
    let plan: Vec<u16> = (190..200).collect();
    let last = [
        2, 20, 4, 2, 6, 4, 8, 6, 10, 8, 12, 10, 14, 12, 16, 14, 18, 16, 20, 18,
    ];
    let lines = [&[0; 378][..], &last, &[3; 10]].concat();
    let figures = [250, 6, 256];
    let bill = Billed::made("a star of 200", &sheet, &plan, [2, 3, 25], &lines, figures);
    vec![bill]
}
