//! A road as another surveyor writes it: hung from another cabinet, with other numbers.

use crate::limits::NO_PARENT;
use crate::path::ancestors;
use crate::sheet::{Cabinet, Pair, Sheet};

/// The sheet rehung and renumbered. Cabinet c gets the number `numbers[c]`; the one that gets 0 is
/// the new root, and each other one hangs under its neighbour on the way there, which must get a
/// smaller number. Barred pairs name the new numbers; services and streams stay as they are.
pub fn rehung(sheet: &Sheet, numbers: &[u16]) -> Sheet {
    let old = inverse(numbers);
    let hung = hung_from(sheet, usize::from(old[0]));
    let cabinets = old.iter().map(|&c| {
        let cabinet = hung[usize::from(c)];
        Cabinet {
            parent: renumbered(cabinet.parent, numbers),
            ..cabinet
        }
    });
    let barred = sheet.barred.iter().map(|pair| Pair {
        cabinet: renumbered(pair.cabinet, numbers),
        ..*pair
    });
    Sheet {
        services: sheet.services.clone(),
        cabinets: cabinets.collect(),
        streams: sheet.streams.clone(),
        barred: barred.collect(),
    }
}

/// The cabinets, still by their old numbers, hung from this one. The links on its way to the old
/// root turn over: each then stands with the cabinet that was above it, up and down exchanged.
fn hung_from(sheet: &Sheet, root: usize) -> Vec<Cabinet> {
    let old = &sheet.cabinets;
    let mut cabinets = old.clone();
    cabinets[root] = Cabinet {
        parent: NO_PARENT,
        capacity: old[root].capacity,
        price: old[root].price,
        ..Cabinet::default()
    };
    for link in ancestors(sheet, root).windows(2) {
        let (below, above) = (link[0], link[1]);
        cabinets[above] = Cabinet {
            parent: below as u16,
            up_capacity: old[below].down_capacity,
            up_price: old[below].down_price,
            down_capacity: old[below].up_capacity,
            down_price: old[below].up_price,
            ..old[above]
        };
    }
    cabinets
}

/// The plan on the rehung road that has every service on the same cabinet.
pub fn carried(plan: &[u16], numbers: &[u16]) -> Vec<u16> {
    plan.iter().map(|&c| renumbered(c, numbers)).collect()
}

/// The numbers that lead back: of each new number, the old one.
pub fn inverse(numbers: &[u16]) -> Vec<u16> {
    let mut old = vec![0; numbers.len()];
    for (c, &number) in numbers.iter().enumerate() {
        old[usize::from(number)] = c as u16;
    }
    old
}

/// The new number of a cabinet; a number that is no cabinet's stays as it is.
fn renumbered(c: u16, numbers: &[u16]) -> u16 {
    numbers.get(usize::from(c)).copied().unwrap_or(c)
}

/// The second sheet says the first one's road rehung and renumbered: as many records of each kind but
/// of pairs, the same services and streams, each cabinet under a number of its own with its capacity
/// and price and the services barred from it, and each link between the cabinets that it had, turned
/// over or not.
pub fn is_rehung(first: &Sheet, other: &Sheet, numbers: &[u16]) -> bool {
    let s = first.cabinets.len();
    let mut sorted = numbers.to_vec();
    sorted.sort_unstable();
    let each_its_own = sorted.iter().copied().eq(0..s as u16);
    each_its_own
        && other.cabinets.len() == s
        && other.services == first.services
        && other.streams == first.streams
        && (0..s).all(|c| is_carried(first, other, numbers, c))
        && (1..s).all(|c| is_connected(first, other, numbers, c))
}

/// Cabinet c has its capacity and price under its new number, and the same services are barred from
/// it.
fn is_carried(first: &Sheet, other: &Sheet, numbers: &[u16], c: usize) -> bool {
    let number = numbers[c];
    let (cabinet, now) = (first.cabinets[c], other.cabinets[usize::from(number)]);
    let barred = |sheet: &Sheet, service: usize, cabinet: u16| {
        let pair = Pair::from_words([service as u16, cabinet]);
        sheet.barred.contains(&pair)
    };
    let mut services = 0..first.services.len();
    [now.capacity, now.price] == [cabinet.capacity, cabinet.price]
        && services.all(|i| barred(other, i, number) == barred(first, i, c as u16))
}

/// The link above cabinet c hangs as it did, or is turned over and stands with what was its parent.
fn is_connected(first: &Sheet, other: &Sheet, numbers: &[u16], c: usize) -> bool {
    let [_, _, _, up, up_price, down, down_price] = first.cabinets[c].words();
    let parent = numbers[usize::from(first.cabinets[c].parent)];
    let hangs = |below: u16, above: u16, link: [u16; 4]| {
        let cabinet = other.cabinets[usize::from(below)].words();
        below != 0 && cabinet[0] == above && cabinet[3..] == link
    };
    hangs(numbers[c], parent, [up, up_price, down, down_price])
        || hangs(parent, numbers[c], [down, down_price, up, up_price])
}
