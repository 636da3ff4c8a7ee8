//! Roads with joints, and plans with a service of demand 0 on one.

use super::Random;
use super::amounts::{Scale, ample};
use super::case::Size;
use super::road::of_numbers;
use super::tied::room;
use crate::sheet::{Sheet, Stream};

/// Where the joints of a road are.
#[derive(Clone, Copy, Debug, PartialEq, Eq)]
enum Manner {
    /// At the root.
    Root,
    /// At cabinets with others under them, but not at the root.
    Middle,
    /// At cabinets without others under them.
    Leaves,
    /// At some.
    Some,
    /// At all but one.
    AllButOne,
    /// At all.
    Everywhere,
}

/// The manners, each as often as it stands here.
const MANNERS: [Manner; 12] = [
    Manner::Root,
    Manner::Root,
    Manner::Middle,
    Manner::Middle,
    Manner::Leaves,
    Manner::Leaves,
    Manner::Some,
    Manner::Some,
    Manner::Some,
    Manner::AllButOne,
    Manner::AllButOne,
    Manner::Everywhere,
];

/// A road with joints, once in three times one whose joints lie between all services.
pub fn jointed(random: &mut Random, size: Size) -> Sheet {
    match size.services > 2 && size.cabinets > 3 && random.once_in(3) {
        true => hub(random, size),
        false => scattered(random, size),
    }
}

/// About half of the services have demand 0, and the cabinets that are no joints have room for some
/// services, often for one of demand 1 or none at all but those.
fn scattered(random: &mut Random, size: Size) -> Sheet {
    let (r, s) = size.draw(random);
    let mut sheet = of_numbers(random, r, s, Scale::Small);
    room(random, &mut sheet);
    for demand in &mut sheet.services {
        *demand *= random.below(2) as u16;
    }
    for cabinet in &mut sheet.cabinets {
        cabinet.capacity = match random.once_in(3) {
            true => 1,
            false => cabinet.capacity.max(1),
        };
    }
    let manner = random.pick(&MANNERS);
    shut(random, manner, &mut sheet);
    sheet
}

/// A service of demand 0 with streams to or from others of demand 1, each of which fills a leaf. All
/// other cabinets are joints, from which the streams would mostly cost least.
fn hub(random: &mut Random, size: Size) -> Sheet {
    let r = size.services.min(size.cabinets).min(4);
    let s = random.between(r, size.cabinets.min(r + 2));
    let joints = s - (r - 1);
    let mut sheet = of_numbers(random, r, s, Scale::Small);
    ample(&mut sheet.cabinets);
    for (c, cabinet) in sheet.cabinets.iter_mut().enumerate().skip(1) {
        cabinet.parent = random.below(c.min(joints)) as u16;
        cabinet.capacity = u16::from(c >= joints);
        cabinet.up_price = 1 + random.below(3) as u16;
        cabinet.down_price = 1 + random.below(3) as u16;
    }
    sheet.cabinets[0].capacity = 0;
    let idle = random.below(r) as u16;
    sheet.services = vec![1; r];
    sheet.services[usize::from(idle)] = 0;
    sheet.streams = (0..r as u16)
        .filter(|&other| other != idle)
        .map(|other| match random.once_in(3) {
            true => Stream::from_words([other, idle, 1 + random.below(3) as u16]),
            false => Stream::from_words([idle, other, 1 + random.below(3) as u16]),
        })
        .collect();
    sheet
}

/// Makes joints of cabinets in this manner.
fn shut(random: &mut Random, manner: Manner, sheet: &mut Sheet) {
    let spared = random.below(sheet.cabinets.len());
    let parents: Vec<u16> = sheet.cabinets.iter().map(|c| c.parent).collect();
    for (c, cabinet) in sheet.cabinets.iter_mut().enumerate() {
        let inner = parents.contains(&(c as u16));
        let joint = match manner {
            Manner::Root => c == 0,
            Manner::Middle => c != 0 && inner,
            Manner::Leaves => c != 0 && !inner,
            Manner::Some => random.once_in(2),
            Manner::AllButOne => c != spared,
            Manner::Everywhere => true,
        };
        if joint {
            cabinet.capacity = 0;
        }
    }
}

/// Plans with a service of demand 0 on a joint, if there are both: one that overfills no cabinet, if
/// chance finds it; the same with other services of demand 0 elsewhere; and, where there are such,
/// one with a place past the last cabinet and one with a barred pair.
pub fn strayed(random: &mut Random, sheet: &Sheet) -> Vec<Vec<u16>> {
    let idle: Vec<usize> = (0..sheet.services.len())
        .filter(|&i| sheet.services[i] == 0)
        .collect();
    let joints: Vec<usize> = (0..sheet.cabinets.len())
        .filter(|&c| sheet.cabinets[c].is_joint())
        .collect();
    if idle.is_empty() || joints.is_empty() {
        return vec![];
    }
    let stray = random.pick(&idle);
    let mut alone = fitting(random, sheet);
    alone[stray] = random.pick(&joints) as u16;
    let mut elsewhere = alone.clone();
    for &i in idle.iter().filter(|&&i| i != stray) {
        elsewhere[i] = random.below(sheet.cabinets.len()) as u16;
    }
    let mut plans = vec![alone.clone(), elsewhere];
    if alone.len() > 1 {
        let other = (stray + random.between(1, alone.len() - 1)) % alone.len();
        let mut past = alone.clone();
        past[other] = sheet.cabinets.len() as u16;
        plans.push(past);
    }
    if !sheet.barred.is_empty() {
        let pair = random.pick(&sheet.barred);
        alone[usize::from(pair.service)] = pair.cabinet;
        plans.push(alone);
    }
    plans
}

/// A plan with each service on some cabinet that has room for it beside those before it, or anywhere
/// if there is none; joints have none.
fn fitting(random: &mut Random, sheet: &Sheet) -> Vec<u16> {
    let mut left: Vec<u16> = sheet.cabinets.iter().map(|c| c.capacity).collect();
    let mut place = |&demand: &u16| {
        let all = 0..left.len();
        let roomy: Vec<usize> = all
            .filter(|&c| !sheet.cabinets[c].is_joint() && left[c] >= demand)
            .collect();
        let cabinet = match roomy.is_empty() {
            true => random.below(left.len()),
            false => random.pick(&roomy),
        };
        left[cabinet] = left[cabinet].saturating_sub(demand);
        cabinet as u16
    };
    sheet.services.iter().map(&mut place).collect()
}
