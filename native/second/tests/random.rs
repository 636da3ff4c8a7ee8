//! The random cases reach every refusal, and accepted ones read back as they were written.

use second::bars::Bars;
use second::build::tight;
use second::check::{check_sheet, only_framing};
use second::form::{Form, forms};
use second::plan::solve;
use second::random::amounts::just_enough;
use second::random::damage::{Damage, damage};
use second::random::road::{Kind, of_kind, road};
use second::random::{Random, Size, case, layout::layout, tied};
use second::{Sheet, build, check, plan, read};
use std::collections::BTreeMap;

const SIZE: Size = Size {
    services: 4,
    cabinets: 6,
};

#[test]
fn written_sheets_read_back() {
    let mut random = Random::new(1);
    for _ in 0..2000 {
        let (_, sheet) = road(&mut random, SIZE);
        let layout = layout(&mut random, &sheet);
        assert_eq!(read(&build(&sheet, &layout)), Ok(sheet));
    }
}

#[test]
fn every_refusal_is_reached() {
    let mut random = Random::new(2);
    let mut reached: BTreeMap<u64, usize> = BTreeMap::new();
    let mut note = |number| *reached.entry(number).or_default() += 1;
    for _ in 0..2000 {
        let case = case(&mut random, SIZE);
        note(read(&case.sheet).err().unwrap_or(0));
        for list in &case.plans {
            note(check(&case.sheet, list).err().unwrap_or(0));
        }
        for lent in &case.lent {
            let answer = plan(&case.sheet, lent.output, lent.costs, lent.choices);
            note(answer.refusal);
            if let Some(best) = &answer.plan {
                assert_eq!(check(&case.sheet, best), Ok(answer.cost));
            }
        }
    }
    for number in (0..=16).chain(18..=20) {
        let times = reached.get(&number).copied().unwrap_or(0);
        assert!(times >= 10, "refusal {number} reached {times} times");
    }
}

/// What is told apart about the barred pairs of a sheet.
fn manners(sheet: &Sheet, block: bool) -> Vec<&'static str> {
    let bars = Bars::new(sheet);
    let (r, s) = (sheet.services.len(), sheet.cabinets.len());
    let pairs = &sheet.barred;
    let repeated = (1..pairs.len()).any(|k| pairs[..k].contains(&pairs[k]));
    let service = (0..r).any(|i| (0..s).all(|c| bars.bar(i, c)));
    let cabinet = r > 0 && (0..s).any(|c| (0..r).all(|i| bars.bar(i, c)));
    let manners = [
        ("no block", !block),
        ("a count of 0", block && pairs.is_empty()),
        ("a few pairs", (1..4).contains(&pairs.len())),
        ("many pairs", pairs.len() > 8),
        ("a repeated pair", repeated),
        ("a service barred everywhere", service),
        ("a cabinet barred to all", cabinet),
        ("1,999 pairs", pairs.len() == 1999),
        ("2,000 pairs", pairs.len() == 2000),
    ];
    let apply = manners.into_iter().filter(|(_, applies)| *applies);
    apply.map(|(name, _)| name).collect()
}

#[test]
fn barred_pairs_in_every_manner() {
    let mut random = Random::new(3);
    let mut seen: BTreeMap<&str, usize> = BTreeMap::new();
    for _ in 0..8000 {
        let (_, sheet) = road(&mut random, SIZE);
        let block = layout(&mut random, &sheet).offsets[3] != 0;
        for manner in manners(&sheet, block) {
            *seen.entry(manner).or_default() += 1;
        }
    }
    assert_eq!(seen.len(), 9, "{seen:?}");
}

#[test]
fn damage_to_barred_pairs_is_refused() {
    let mut random = Random::new(4);
    let mut times = 0;
    for _ in 0..4000 {
        let (_, sheet) = road(&mut random, SIZE);
        if let (Damage::For(number @ (18 | 19)), bytes) = damage(&mut random, &sheet) {
            assert_eq!(read(&bytes), Err(number));
            times += 1;
        }
    }
    assert!(times > 100, "{times} times");
}

/// The numbers of roads of a kind and of those among them with several cheapest plans.
#[test]
fn the_kinds_that_tie_do() {
    let mut random = Random::new(6);
    let mut seen: BTreeMap<Kind, [usize; 2]> = BTreeMap::new();
    for _ in 0..4000 {
        let (kind, sheet) = road(&mut random, SIZE);
        if tied::KINDS.contains(&kind) {
            let [roads, with_ties] = seen.entry(kind).or_default();
            *roads += 1;
            *with_ties += usize::from(solve(&sheet).ties > 0);
        }
    }
    assert_eq!(seen.len(), 7, "{seen:?}");
    for [roads, with_ties] in seen.values() {
        assert!(*roads > 80 && 5 * with_ties > *roads, "{seen:?}");
    }
}

#[test]
fn cabinets_numbered_anew_keep_their_order_and_their_cost() {
    let mut random = Random::new(7);
    let mut moved = 0;
    for _ in 0..1000 {
        let mut sheet = of_kind(&mut random, Kind::Small, SIZE);
        sheet.barred.clear();
        let before = sheet.clone();
        tied::renumber(&mut random, &mut sheet);
        assert_eq!(read(&tight(&sheet)).as_ref(), Ok(&sheet));
        assert_eq!(solve(&sheet).cost, solve(&before).cost);
        moved += usize::from(sheet != before);
    }
    assert!(moved > 100, "{moved} roads with other numbers");
}

#[test]
fn sheets_in_every_form() {
    let mut random = Random::new(9);
    let mut seen: BTreeMap<Form, usize> = BTreeMap::new();
    for _ in 0..1000 {
        let (_, sheet) = road(&mut random, SIZE);
        let layout = layout(&mut random, &sheet);
        for form in forms(&build(&sheet, &layout)) {
            *seen.entry(form).or_default() += 1;
        }
    }
    for form in Form::ALL {
        let times = seen.get(&form).copied().unwrap_or(0);
        assert!(times >= 20, "{form:?} {times} times");
    }
}

/// Nothing but the pairs has to be put in order.
#[test]
fn sheets_with_untidy_pairs_alone() {
    let mut random = Random::new(16);
    let mut times = 0;
    for _ in 0..1000 {
        let (_, sheet) = road(&mut random, SIZE);
        let layout = layout(&mut random, &sheet);
        let pairs = [Form::RepeatedPairs, Form::FallingPairs, Form::NoStream];
        let forms = forms(&build(&sheet, &layout));
        let untidy = !forms.contains(&Form::Tidy);
        times += usize::from(untidy && forms.iter().all(|form| pairs.contains(form)));
    }
    assert!(times >= 20, "{times} times");
}

/// Six orders of three blocks and 24 of four, each often.
#[test]
fn blocks_in_every_order() {
    let mut random = Random::new(10);
    let mut seen: BTreeMap<Vec<usize>, usize> = BTreeMap::new();
    for _ in 0..8000 {
        let (_, sheet) = road(&mut random, SIZE);
        if sheet.services.is_empty() || sheet.streams.is_empty() {
            continue;
        }
        let offsets = layout(&mut random, &sheet).offsets;
        let mut order: Vec<usize> = (0..4).filter(|&block| offsets[block] != 0).collect();
        order.sort_by_key(|&block| offsets[block]);
        *seen.entry(order).or_default() += 1;
    }
    assert_eq!(seen.len(), 6 + 24, "{seen:?}");
    assert!(seen.values().all(|&times| times >= 20), "{seen:?}");
}

/// Offsets past 255, of every block with bytes.
#[test]
fn blocks_behind_long_gaps() {
    let mut random = Random::new(15);
    let mut far = [0; 4];
    for _ in 0..2000 {
        let (_, sheet) = road(&mut random, SIZE);
        let offsets = layout(&mut random, &sheet).offsets;
        for (times, offset) in far.iter_mut().zip(offsets) {
            *times += usize::from(offset > 255);
        }
    }
    assert!(far.iter().all(|&times| times >= 20), "{far:?}");
}

/// The same road with one less of each capacity in turn that is not 0.
fn each_less(sheet: &Sheet) -> Vec<Sheet> {
    let mut all = vec![];
    for c in 0..sheet.cabinets.len() {
        let mut less = [(); 3].map(|()| sheet.clone());
        let [room, up, down] = &mut less;
        let fields = [
            &mut room.cabinets[c].capacity,
            &mut up.cabinets[c].up_capacity,
            &mut down.cabinets[c].down_capacity,
        ];
        let lessened = fields.map(|field| {
            let full = *field > 0;
            *field -= u16::from(full);
            full
        });
        let changed = less.into_iter().zip(lessened);
        all.extend(changed.filter(|(_, full)| *full).map(|(sheet, _)| sheet));
    }
    all
}

#[test]
fn capacities_cut_to_a_plan_just_suffice_for_it() {
    let mut framed = 0;
    for seed in 0..400 {
        let mut sheet = of_kind(&mut Random::new(seed), Kind::Small, SIZE);
        sheet.barred.clear();
        just_enough(&mut Random::new(seed), &mut sheet);
        let (mut random, s) = (Random::new(seed), sheet.cabinets.len());
        let plan: Vec<u16> = sheet
            .services
            .iter()
            .map(|_| random.below(s) as u16)
            .collect();
        assert!(check_sheet(&sheet, &plan).is_ok(), "{sheet:?}");
        for less in each_less(&sheet) {
            let refusal = check_sheet(&less, &plan);
            assert!(matches!(refusal, Err(15 | 16)), "{refusal:?}: {less:?}");
            framed += usize::from(only_framing(&less, &plan));
        }
    }
    assert!(framed > 100, "{framed} plans refused for framing alone");
}

#[test]
fn costs_of_long_chains_pass_32_bits() {
    let mut random = Random::new(17);
    for _ in 0..40 {
        let mut sheet = of_kind(&mut random, Kind::Long, SIZE);
        sheet.barred.clear();
        let answer = solve(&sheet);
        assert!(answer.cost > u64::from(u32::MAX), "{answer:?}");
    }
}
