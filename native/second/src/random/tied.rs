//! Random roads that are made to have several cheapest plans.

use super::Random;
use super::amounts::{Scale, ample};
use super::case::Size;
use super::rehung::numbers_from;
use super::road::{Kind, of_numbers};
use crate::framing::taken;
use crate::limits::{AMOUNT, NO_PARENT, SERVICES};
use crate::rehung::rehung;
use crate::sheet::{Cabinet, Sheet};

/// The kinds that tie, each as often as it stands here.
pub const KINDS: [Kind; 8] = [
    Kind::Equal,
    Kind::FreeLinks,
    Kind::FewPrices,
    Kind::Idle,
    Kind::Legs,
    Kind::Legs,
    Kind::Twins,
    Kind::Many,
];

/// A road of one of these kinds, without barred pairs.
pub fn tied(random: &mut Random, kind: Kind, size: Size) -> Sheet {
    let (r, s) = size.draw(random);
    let (r, s) = (r.max(size.services.min(2)), s.max(size.cabinets.min(2)));
    match kind {
        Kind::Twins => twins(random, r, s),
        Kind::Legs => legs(random, r, s),
        Kind::Many => many(random),
        _ => {
            let mut sheet = of_numbers(random, r, s, Scale::Small);
            if kind == Kind::Idle {
                idle(random, &mut sheet);
            }
            room(random, &mut sheet);
            tie(random, kind, &mut sheet);
            renumber(random, &mut sheet);
            sheet
        }
    }
}

/// Gives a road the prices of a kind that ties.
pub fn tie(random: &mut Random, kind: Kind, sheet: &mut Sheet) {
    match kind {
        Kind::Equal => equal_prices(random, &mut sheet.cabinets),
        Kind::FreeLinks => free_links(random, &mut sheet.cabinets),
        _ => few_prices(random, &mut sheet.cabinets),
    }
}

/// One price for all cabinets, and one for all links.
fn equal_prices(random: &mut Random, cabinets: &mut [Cabinet]) {
    let (price, link) = (random.below(3) as u16, random.below(2) as u16);
    set_prices(cabinets, || [price, link, link]);
}

/// Links without a price and with the largest capacity; two prices of cabinets.
fn free_links(random: &mut Random, cabinets: &mut [Cabinet]) {
    set_prices(cabinets, || [1 + random.below(2) as u16, 0, 0]);
    for cabinet in cabinets.iter_mut().skip(1) {
        cabinet.up_capacity = AMOUNT;
        cabinet.down_capacity = AMOUNT;
    }
}

/// Two prices, of which a cabinet and each direction of a link have one or the other.
fn few_prices(random: &mut Random, cabinets: &mut [Cabinet]) {
    let prices = [random.below(3) as u16, random.below(3) as u16];
    set_prices(cabinets, || [(); 3].map(|()| random.pick(&prices)));
}

/// Gives each cabinet the next price, up price and down price.
fn set_prices(cabinets: &mut [Cabinet], mut next: impl FnMut() -> [u16; 3]) {
    for (c, cabinet) in cabinets.iter_mut().enumerate() {
        let [price, up, down] = next();
        cabinet.price = price;
        if c != 0 {
            cabinet.up_price = up;
            cabinet.down_price = down;
        }
    }
}

/// Gives cabinets room for some of the services or for all, or makes joints of them, and links room
/// for all or most streams.
pub fn room(random: &mut Random, sheet: &mut Sheet) {
    let most = |sum: usize| sum.min(usize::from(AMOUNT));
    let demand = most(sheet.services.iter().map(|&d| usize::from(d)).sum());
    let load = most(sheet.streams.iter().map(|t| taken(t.demand) as usize).sum());
    let narrow = random.once_in(3);
    ample(&mut sheet.cabinets);
    for (c, cabinet) in sheet.cabinets.iter_mut().enumerate() {
        cabinet.capacity = random.between(0, demand.max(1)) as u16;
        if c != 0 && narrow {
            cabinet.up_capacity = random.between(load / 2, load) as u16;
            cabinet.down_capacity = random.between(0, load) as u16;
        }
    }
}

/// Takes the demand of most services, and of some streams, away.
fn idle(random: &mut Random, sheet: &mut Sheet) {
    for demand in &mut sheet.services {
        *demand *= u16::from(random.once_in(4));
    }
    for stream in &mut sheet.streams {
        stream.demand *= random.below(2) as u16;
    }
}

/// Two legs with alternating numbers and equal prices; a cabinet holds one service or two.
fn legs(random: &mut Random, r: usize, s: usize) -> Sheet {
    let mut sheet = of_numbers(random, r, s, Scale::Ties);
    sheet.services = vec![1; r];
    room(random, &mut sheet);
    for (c, cabinet) in sheet.cabinets.iter_mut().enumerate() {
        let parent = if c == 0 {
            NO_PARENT
        } else {
            c.saturating_sub(2) as u16
        };
        cabinet.parent = parent;
        cabinet.capacity = random.below(3) as u16;
    }
    match random.below(3) {
        0 => equal_prices(random, &mut sheet.cabinets),
        _ => free_links(random, &mut sheet.cabinets),
    }
    sheet
}

/// Two subtrees alike under the root, with their numbers mixed.
fn twins(random: &mut Random, r: usize, s: usize) -> Sheet {
    let half = s.div_ceil(2);
    let mut sheet = of_numbers(random, r, half, Scale::Small);
    room(random, &mut sheet);
    for c in 1..half {
        let mut twin = sheet.cabinets[c];
        if twin.parent != 0 {
            twin.parent += half as u16 - 1;
        }
        sheet.cabinets.push(twin);
    }
    renumber(random, &mut sheet);
    sheet
}

/// Six services or more on two or three cabinets.
fn many(random: &mut Random) -> Sheet {
    let r = random.between(6, SERVICES);
    let s = if r < 8 { random.between(2, 3) } else { 2 };
    let mut sheet = of_numbers(random, r, s, Scale::Ties);
    room(random, &mut sheet);
    let kind = random.pick(&[Kind::Equal, Kind::FreeLinks, Kind::FewPrices]);
    tie(random, kind, &mut sheet);
    sheet
}

/// Numbers the cabinets anew, each still after its parent.
pub fn renumber(random: &mut Random, sheet: &mut Sheet) {
    let numbers = numbers_from(random, &sheet.cabinets, 0);
    *sheet = rehung(sheet, &numbers);
}
