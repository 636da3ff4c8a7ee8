//! Tidy copies of random sheets.

use second::build::tight;
use second::random::road::{Kind, of_kind, road};
use second::random::{Random, Size, case, layout::layout};
use second::tidy::{copy, in_order};
use second::{Sheet, build, check, plan, read};
use std::collections::BTreeMap;

const SIZE: Size = Size {
    services: 4,
    cabinets: 6,
};

/// The records with the pairs as a set.
fn as_set(mut sheet: Sheet) -> Sheet {
    sheet.barred = in_order(&sheet.barred);
    sheet
}

/// The copy of a sheet, by its bytes.
fn copied(bytes: &[u8]) -> Vec<u8> {
    copy(&read(bytes).expect("an accepted sheet"))
}

/// The sheet with its pairs in another order, and one of them once more.
fn rewritten(random: &mut Random, sheet: &Sheet) -> Sheet {
    let pairs = &sheet.barred;
    let order = random.order(pairs.len());
    let mut sheet = sheet.clone();
    sheet.barred = order.into_iter().map(|k| pairs[k]).collect();
    if (1..2_000).contains(&pairs.len()) {
        sheet.barred.push(random.pick(pairs));
    }
    sheet
}

/// Equal copies come from equal records, and equal records have equal copies.
#[test]
fn equal_exactly_when_the_records_agree() {
    let mut random = Random::new(11);
    let mut seen: BTreeMap<Vec<u8>, Sheet> = BTreeMap::new();
    let (mut again, mut untidy) = (0, 0);
    for _ in 0..3_000 {
        let (_, sheet) = road(&mut random, SIZE);
        let one = build(&sheet, &layout(&mut random, &sheet));
        let other = rewritten(&mut random, &sheet);
        let other = build(&other, &layout(&mut random, &other));
        let copy = copied(&one);
        assert_eq!(copied(&other), copy);
        untidy += usize::from(one != copy && other != copy);
        again += usize::from(seen.contains_key(&copy));
        let records = seen.entry(copy).or_insert(as_set(sheet.clone()));
        assert_eq!(*records, as_set(sheet));
    }
    assert!(untidy > 1_500, "{untidy} roads in two untidy forms");
    assert!(again > 20, "{again} copies seen before");
}

#[test]
fn the_copy_has_the_records_and_is_tidy() {
    let mut random = Random::new(14);
    for _ in 0..2_000 {
        let (_, sheet) = road(&mut random, SIZE);
        let copy = copied(&build(&sheet, &layout(&mut random, &sheet)));
        assert_eq!(read(&copy), Ok(as_set(sheet.clone())));
        assert_eq!(copied(&copy), copy);
        assert_eq!(copy, tight(&as_set(sheet)));
    }
}

#[test]
fn the_copy_is_planned_and_checked_alike() {
    let mut random = Random::new(12);
    let mut planned = 0;
    for _ in 0..600 {
        let case = case(&mut random, SIZE);
        let Ok(sheet) = read(&case.sheet) else {
            continue;
        };
        let copy = copy(&sheet);
        for lent in &case.lent {
            let answer = |sheet: &[u8]| plan(sheet, lent.output, lent.costs, lent.choices);
            assert_eq!(answer(&copy), answer(&case.sheet));
            planned += usize::from(answer(&copy).refusal == 0);
        }
        for plan in &case.plans {
            assert_eq!(check(&copy, plan), check(&case.sheet, plan));
        }
    }
    assert!(planned > 100, "{planned} plans");
}

#[test]
fn large_roads() {
    let mut random = Random::new(13);
    for _ in 0..40 {
        let sheet = of_kind(&mut random, Kind::Large, SIZE);
        let bytes = build(&sheet, &layout(&mut random, &sheet));
        let copy = copied(&bytes);
        assert_eq!(copy, tight(&as_set(sheet)));
        assert!(copy.len() <= bytes.len());
    }
}
