//! The bill: the cases written down, its parts, and what holds of every bill of a random road.

use second::bill::{Bill, Tariff, blocks, link_loads, number_of_lines, tax, thousandths};
use second::billed::{Billed, all};
use second::build::tight;
use second::feature::{Feature, features};
use second::framing::taken;
use second::limits::{MOST_LINES, TARIFF_PRICE, TAX_RATE};
use second::measured::{m, m_records};
use second::path::ancestors;
use second::random::road::{Kind, of_kind, road};
use second::random::{Random, Size, case, tariff};
use second::{Sheet, bill, check, group, read};

const SIZE: Size = Size {
    services: 4,
    cabinets: 6,
};

#[test]
fn limits() {
    assert_eq!((TARIFF_PRICE, TAX_RATE, MOST_LINES), (10_000, 1_000, 408));
    assert_eq!(group(22), 2);
}

/// Lines and figures are right, and all other places stay.
#[test]
fn written_down() {
    for billed in all() {
        let before: Vec<u64> = (0..billed.places).map(|k| 1_000_000 + k as u64).collect();
        let mut places = before.clone();
        let answer = bill(&billed.sheet, &billed.plan, billed.tariff, &mut places);
        let (lines, right) = match billed.answer {
            Ok((lines, figures)) => (lines, Ok(figures)),
            Err(refusal) => (vec![], Err(refusal)),
        };
        assert_eq!(answer, right, "{}", billed.name);
        let (first, others) = places.split_at(lines.len());
        assert_eq!(first, lines, "{}", billed.name);
        assert_eq!(others, &before[lines.len()..], "{}", billed.name);
    }
}

/// Among them there is everything that a comparison must meet.
#[test]
fn every_feature_is_written_down() {
    let of = |billed: Billed| {
        let Billed {
            plan,
            tariff,
            places,
            ..
        } = billed;
        let answer = billed.answer.map(|(_, figures)| figures);
        features(&read(&billed.sheet), &plan, tariff, places, answer)
    };
    let met: Vec<Feature> = all().into_iter().flat_map(of).collect();
    for feature in Feature::all() {
        assert!(met.contains(&feature), "{feature:?}");
    }
    assert!(met.iter().all(|feature| Feature::all().contains(feature)));
}

#[test]
fn blocks_that_are_started() {
    for load in 0..=10_000 {
        let started = blocks(load);
        assert!(100 * started >= load, "{load}");
        assert!(100 * started < load + 100, "{load}");
    }
}

/// The tax in thousandths of a cent is no further from net times rate than half a cent, and half a
/// cent only above.
#[test]
fn nearest_cent() {
    let nets = (0..3_000).chain((0..200).map(|k| 1_398_000_000 - 7 * k));
    for net in nets {
        for rate in (0..=1_000).step_by(if net < 3_000 { 1 } else { 13 }) {
            let (exact, given) = (net * rate, 1_000 * tax(net, rate));
            assert!(given <= exact + 500 && exact < given + 500, "{net} {rate}");
            assert_eq!(thousandths(net, rate), exact % 1_000);
        }
    }
}

/// A stream runs up the link of c if it starts at c or under it and ends elsewhere, and down if it
/// is the other way around.
fn load(sheet: &Sheet, plan: &[u16], c: usize, up: bool) -> u64 {
    let under = |service: u16| {
        let cabinet = usize::from(plan[usize::from(service)]);
        ancestors(sheet, cabinet).contains(&c)
    };
    let runs = |from: bool, to: bool| if up { from && !to } else { to && !from };
    let streams = sheet.streams.iter();
    let over = streams.filter(|t| runs(under(t.from), under(t.to)));
    over.map(|t| taken(t.demand)).sum()
}

#[test]
fn loads_by_what_is_under_a_link() {
    let mut random = Random::new(9);
    for _ in 0..2_000 {
        let (kind, sheet) = road(&mut random, SIZE);
        let s = sheet.cabinets.len();
        let place = |_| random.below(s) as u16;
        let plan: Vec<u16> = sheet.services.iter().map(place).collect();
        let right: Vec<[u64; 2]> = (1..s)
            .map(|c| [true, false].map(|up| load(&sheet, &plan, c, up)))
            .collect();
        assert_eq!(link_loads(&sheet, &plan), right, "{kind:?}: {sheet:?}");
    }
}

/// A bill is made exactly of the plans that the check accepts, its lines sum to the net, and the
/// total is net plus tax.
#[test]
fn random_cases() {
    let mut random = Random::new(12);
    let mut made = 0;
    for _ in 0..1_500 {
        let case = case(&mut random, SIZE);
        for plan in &case.plans {
            let tariff = tariff::within(&mut random);
            let mut lines = [u64::MAX; MOST_LINES];
            let answer = bill(&case.sheet, plan, tariff, &mut lines);
            assert_eq!(answer.err(), check(&case.sheet, plan).err());
            let Ok(Bill { net, tax, total }) = answer else {
                assert_eq!(lines, [u64::MAX; MOST_LINES]);
                continue;
            };
            let number = number_of_lines(&read(&case.sheet).unwrap());
            assert_eq!(net, lines[..number].iter().sum());
            assert_eq!(total, net + tax);
            assert!(lines[number..].iter().all(|&line| line == u64::MAX));
            made += 1;
        }
    }
    assert!(made > 2_000, "{made} bills");
}

/// Every price is for its own lines alone, and the rate for the tax alone.
#[test]
fn prices_apart() {
    let of = |tariff| {
        let mut lines = [9; 6];
        let bill = bill(&m(), &[1, 2], Tariff::of(tariff), &mut lines);
        (lines, bill.map(|bill| [bill.net, bill.tax, bill.total]))
    };
    assert_eq!(of([3, 0, 0]), ([3, 0, 0, 3, 0, 0], Ok([6, 0, 6])));
    assert_eq!(of([0, 3, 0]), ([0, 0, 0, 0, 6, 6], Ok([12, 0, 12])));
    assert_eq!(of([3, 3, 1_000]), ([3, 0, 0, 3, 6, 6], Ok([18, 18, 36])));
    assert_eq!(of([3, 3, 1_001]), ([9; 6], Err(22)));
}

/// A sharp tariff, if one is found, leaves just below half a cent, half a cent, or just above.
#[test]
fn sharp_tariffs() {
    let mut random = Random::new(3);
    let sheet = m_records();
    let mut left = [0; 3];
    for _ in 0..300 {
        let Some(tariff) = tariff::sharp(&mut random, &sheet, &[0, 1]) else {
            continue;
        };
        let mut lines = [0; 6];
        let bill = bill(&tight(&sheet), &[0, 1], tariff, &mut lines).expect("a bill");
        left[(thousandths(bill.net, tariff.tax_rate) - 499) as usize] += 1;
    }
    assert!(left.iter().all(|&times| times > 30), "{left:?}");
}

/// Roads made for blocks have every load that is told apart on their links, in valid plans.
#[test]
fn loads_of_roads_made_for_blocks() {
    let mut random = Random::new(4);
    let mut loads = vec![];
    for _ in 0..200 {
        let sheet = of_kind(&mut random, Kind::Blocks, SIZE);
        let place = |_| random.below(sheet.cabinets.len()) as u16;
        let plan: Vec<u16> = sheet.services.iter().map(place).collect();
        if check(&tight(&sheet), &plan).is_ok() {
            loads.extend(link_loads(&sheet, &plan).concat());
        }
    }
    for load in [0, 99, 100, 101, 10_000] {
        let times = loads.iter().filter(|&&met| met == load).count();
        assert!(times > 5, "a load of {load}: {times} times");
    }
}
