//! Random roads of several kinds and shapes.

use super::Random;
use super::amounts::{Scale, ample, capacities, just_enough, one_less, prices};
use super::bars::bars;
use super::case::Size;
use super::joints::jointed;
use super::tied::{self, renumber, room, tie, tied};
use crate::framing::FRAMING;
use crate::limits::{AMOUNT, NO_PARENT, SERVICES, STREAMS};
use crate::sheet::{Cabinet, Sheet, Stream};

/// What is special about a road.
#[derive(Clone, Copy, Debug, PartialEq, Eq, PartialOrd, Ord)]
pub enum Kind {
    /// Small amounts, capacities at random.
    Small,
    /// Amounts of 0 and 1.
    Ties,
    /// Mostly zeros.
    Zeros,
    /// Capacities that just suffice for some plan.
    Enough,
    /// The same, with one capacity less by one.
    Lacking,
    /// Many streams of the same few pairs.
    Pairs,
    /// Links that just carry the streams of some plan, or would if framing took no line.
    Framed,
    /// Joints, and services of demand 0.
    Joints,
    /// Many streams of large demand, so that sums pass 65,535.
    Streams,
    /// Many services of large demand on one or two cabinets, for the same.
    Crowd,
    /// A long chain with high prices, so that costs pass 32 bits.
    Long,
    /// Room for everything, and streams whose loads come to about whole blocks of a bill.
    Blocks,
    /// Everything at its largest or 0.
    Extreme,
    /// Up to 10 services, 200 cabinets and 100 streams: too many plans to try.
    Large,
    /// One price for all cabinets, and one for all links.
    Equal,
    /// Free links of the largest capacity.
    FreeLinks,
    /// Two prices.
    FewPrices,
    /// Many services of demand 0.
    Idle,
    /// Two legs with alternating numbers.
    Legs,
    /// Two subtrees alike, with their numbers mixed.
    Twins,
    /// Six services or more on few cabinets, with few prices.
    Many,
}

/// The kinds that are common, each as often as it stands here.
const KINDS: [Kind; 34] = [
    Kind::Small,
    Kind::Small,
    Kind::Small,
    Kind::Small,
    Kind::Ties,
    Kind::Ties,
    Kind::Zeros,
    Kind::Zeros,
    Kind::Enough,
    Kind::Enough,
    Kind::Enough,
    Kind::Enough,
    Kind::Enough,
    Kind::Lacking,
    Kind::Lacking,
    Kind::Lacking,
    Kind::Pairs,
    Kind::Pairs,
    Kind::Pairs,
    Kind::Framed,
    Kind::Framed,
    Kind::Framed,
    Kind::Framed,
    Kind::Joints,
    Kind::Joints,
    Kind::Joints,
    Kind::Joints,
    Kind::Joints,
    Kind::Joints,
    Kind::Streams,
    Kind::Streams,
    Kind::Crowd,
    Kind::Extreme,
    Kind::Small,
];

/// A road no larger than the size, and its kind: once in four times one of those that tie, and
/// sometimes one with loads of about whole blocks.
pub fn road(random: &mut Random, size: Size) -> (Kind, Sheet) {
    let kind = match random.below(400) {
        0 => Kind::Long,
        1..=100 => random.pick(&tied::KINDS),
        101..=124 => Kind::Blocks,
        _ => random.pick(&KINDS),
    };
    (kind, of_kind(random, kind, size))
}

/// A road of this kind, every other time with barred pairs.
pub fn of_kind(random: &mut Random, kind: Kind, size: Size) -> Sheet {
    let mut sheet = unbarred(random, kind, size);
    sheet.barred = bars(random, &sheet);
    sheet
}

fn unbarred(random: &mut Random, kind: Kind, size: Size) -> Sheet {
    match kind {
        Kind::Small => plain(random, size, Scale::Small),
        Kind::Ties => plain(random, size, Scale::Ties),
        Kind::Zeros => plain(random, size, Scale::Zeros),
        Kind::Extreme => plain(random, size, Scale::Big),
        Kind::Enough | Kind::Lacking => measured_out(random, kind, size),
        Kind::Pairs => pairs(random, size),
        Kind::Framed => framed(random, size),
        Kind::Joints => jointed(random, size),
        Kind::Streams => streams(random, size),
        Kind::Crowd => crowd(random),
        Kind::Long => long(random),
        Kind::Blocks => blocks(random, size),
        Kind::Large => large(random),
        _ => tied(random, kind, size),
    }
}

/// A star, a chain or a random tree of s cabinets, without amounts.
pub fn shape(random: &mut Random, s: usize) -> Vec<Cabinet> {
    let form = random.below(6);
    let mut cabinets = vec![Cabinet::default(); s];
    for (c, cabinet) in cabinets.iter_mut().enumerate() {
        cabinet.parent = match (c, form) {
            (0, _) => NO_PARENT,
            (_, 0) => 0,
            (_, 1) => c as u16 - 1,
            // Two branches whose numbers alternate.
            (_, 2) => c.saturating_sub(2) as u16,
            // Parents near the root, so that late numbers hang under early children.
            (_, 3) => random.below(c.min(3)) as u16,
            _ => random.below(c) as u16,
        };
    }
    cabinets
}

/// So many streams between random services; none when there are fewer than two services.
fn some_streams(random: &mut Random, r: usize, q: usize, scale: Scale) -> Vec<Stream> {
    let q = if r < 2 { 0 } else { q };
    let mut stream = || {
        let from = random.below(r);
        let to = (from + random.between(1, r - 1)) % r;
        Stream {
            from: from as u16,
            to: to as u16,
            demand: scale.amount(random),
        }
    };
    (0..q).map(|_| stream()).collect()
}

/// A road no larger than the size, with amounts at random.
fn plain(random: &mut Random, size: Size, scale: Scale) -> Sheet {
    let (r, s) = size.draw(random);
    of_numbers(random, r, s, scale)
}

/// A road of so many services and cabinets with amounts at random, sometimes with ample capacities.
pub fn of_numbers(random: &mut Random, r: usize, s: usize, scale: Scale) -> Sheet {
    let q = random.below(6);
    let mut sheet = Sheet {
        services: (0..r).map(|_| scale.amount(random)).collect(),
        cabinets: shape(random, s),
        streams: some_streams(random, r, q, scale),
        barred: vec![],
    };
    prices(random, scale, &mut sheet.cabinets);
    if random.once_in(4) {
        ample(&mut sheet.cabinets);
    } else {
        capacities(random, scale, &mut sheet.cabinets);
    }
    sheet
}

/// Capacities cut to some plan, or one less than that.
fn measured_out(random: &mut Random, kind: Kind, size: Size) -> Sheet {
    let scale = random.pick(&[Scale::Small, Scale::Small, Scale::Ties, Scale::Wide]);
    let mut sheet = plain(random, size, scale);
    just_enough(random, &mut sheet);
    if kind == Kind::Lacking {
        one_less(random, &mut sheet);
    }
    sheet
}

/// Many small streams that all join one pair or its reverse, mostly one way.
fn pairs(random: &mut Random, size: Size) -> Sheet {
    let mut sheet = plain(random, size, Scale::Small);
    let r = sheet.services.len();
    let q = random.between(2, 9);
    sheet.streams = some_streams(random, r, q, Scale::Small);
    if let Some(&first) = sheet.streams.first() {
        for stream in &mut sheet.streams {
            (stream.from, stream.to) = match random.below(4) {
                0 => (first.to, first.from),
                _ => (first.from, first.to),
            };
        }
        just_enough(random, &mut sheet);
    }
    sheet
}

/// Two services or more of demand 1, and capacities cut to some plan; but cabinets may hold one
/// more, and a link may lack up to the framing of a stream.
fn framed(random: &mut Random, size: Size) -> Sheet {
    let (r, s) = size.draw(random);
    let (r, s) = (r.max(size.services.min(2)), s.max(size.cabinets.min(2)));
    let mut sheet = of_numbers(random, r, s, Scale::Small);
    sheet.services.fill(1);
    let q = random.between(1, 8);
    sheet.streams = some_streams(random, r, q, Scale::Small);
    just_enough(random, &mut sheet);
    for cabinet in &mut sheet.cabinets {
        cabinet.capacity += random.below(2) as u16;
        for capacity in [&mut cabinet.up_capacity, &mut cabinet.down_capacity] {
            let lacking = random.pick(&[0, 0, 0, 1, FRAMING as u16]);
            *capacity = capacity.saturating_sub(lacking);
        }
    }
    sheet
}

/// So many large streams that a direction can be asked to carry more than 65,535.
fn streams(random: &mut Random, size: Size) -> Sheet {
    let mut sheet = plain(random, size, Scale::Small);
    let r = sheet.services.len();
    let q = random.between(6, 24);
    sheet.streams = some_streams(random, r, q, Scale::Big);
    if let Some(&first) = sheet.streams.first()
        && random.once_in(2)
    {
        // Seven of 10,000 are a small number in 16 bits.
        let first = Stream {
            demand: 10_000 - random.below(600) as u16,
            ..first
        };
        sheet.streams = vec![first; 7];
    }
    ample(&mut sheet.cabinets);
    for cabinet in &mut sheet.cabinets {
        cabinet.capacity = random.below(6) as u16;
    }
    sheet
}

/// Seven services or more of large demand on few cabinets.
fn crowd(random: &mut Random) -> Sheet {
    let r = random.between(7, SERVICES);
    let s = random.between(1, 2);
    let mut sheet = Sheet {
        services: (0..r).map(|_| Scale::Big.amount(random)).collect(),
        cabinets: shape(random, s),
        streams: some_streams(random, r, 2, Scale::Small),
        barred: vec![],
    };
    if random.once_in(2) {
        for demand in sheet.services.iter_mut().skip(2) {
            *demand /= 10;
        }
    }
    prices(random, Scale::Small, &mut sheet.cabinets);
    ample(&mut sheet.cabinets);
    sheet
}

/// Demands that with their framing are about a whole block, or all that a link carries.
const WHOLE: [u16; 4] = [97, 98, 99, 9_998];
/// Demands of which two or three are about a whole block, or two.
const PARTS: [u16; 6] = [0, 31, 48, 49, 98, 99];

/// Two services or more on roomy cabinets, and a few streams of whole blocks, or once in three times
/// several of one pair that make up blocks together.
fn blocks(random: &mut Random, size: Size) -> Sheet {
    let (r, s) = size.draw(random);
    let (r, s) = (r.max(size.services.min(2)), s.max(size.cabinets.min(2)));
    let mut sheet = of_numbers(random, r, s, Scale::Small);
    let together = random.once_in(3);
    let q = random.pick(if together { &[2, 2, 3] } else { &[1, 2, 3] });
    sheet.streams = some_streams(random, r, q, Scale::Small);
    for stream in &mut sheet.streams {
        stream.demand = random.pick(if together { &PARTS[..] } else { &WHOLE });
    }
    if let Some(&Stream { from, to, .. }) = sheet.streams.first()
        && together
    {
        for stream in &mut sheet.streams {
            (stream.from, stream.to) = (from, to);
        }
    }
    ample(&mut sheet.cabinets);
    sheet
}

/// A chain of more than 43 links whose ends alone hold a service each, everything at its largest,
/// or the largest that links carry.
fn long(random: &mut Random) -> Sheet {
    let s = random.between(45, 48);
    let mut sheet = Sheet {
        services: vec![10_000, 10_000],
        cabinets: vec![Cabinet::default(); s],
        streams: vec![Stream::from_words([0, 1, AMOUNT - FRAMING as u16])],
        barred: vec![],
    };
    ample(&mut sheet.cabinets);
    for (c, cabinet) in sheet.cabinets.iter_mut().enumerate() {
        cabinet.parent = if c == 0 { NO_PARENT } else { c as u16 - 1 };
        if c != 0 {
            cabinet.up_price = 10_000;
            cabinet.down_price = 10_000;
        }
        if c != 0 && c != s - 1 {
            cabinet.capacity = random.below(10_000) as u16;
        }
    }
    sheet
}

/// A road of many cabinets, with capacities that leave several plans or just one, every other time
/// with prices that tie.
fn large(random: &mut Random) -> Sheet {
    let r = random.between(5, SERVICES);
    let s = random.pick(&[20, 64, 199, 200]);
    let q = random.pick(&[0, 12, 40, STREAMS]);
    let scale = random.pick(&[Scale::Small, Scale::Zeros, Scale::Wide]);
    let mut sheet = Sheet {
        services: (0..r).map(|_| scale.amount(random)).collect(),
        cabinets: shape(random, s),
        streams: some_streams(random, r, q, scale),
        barred: vec![],
    };
    prices(random, scale, &mut sheet.cabinets);
    if random.once_in(2) {
        let kind = random.pick(&[Kind::Equal, Kind::FreeLinks, Kind::FewPrices]);
        tie(random, kind, &mut sheet);
        renumber(random, &mut sheet);
    }
    match random.below(4) {
        0 => ample(&mut sheet.cabinets),
        1 => capacities(random, scale, &mut sheet.cabinets),
        2 => room(random, &mut sheet),
        _ => just_enough(random, &mut sheet),
    }
    sheet
}
