//! The calls on the measured road M.

mod roads;

use gazrieksne::{Bill, Cabinet, Counts, Group, Pair, Planned, Refusal, Stream, Tariff};
use roads::{CHOICES, COSTS, M, bytes, m, m_edited};

/// M with a block of barred pairs behind it.
fn m_barred(pairs: &[[u16; 2]]) -> Vec<u8> {
    let mut words = M.to_vec();
    words[6] += 2 + 4 * pairs.len() as u16;
    words[7] = 68;
    words.push(pairs.len() as u16);
    words.extend(pairs.concat());
    bytes(&words)
}

#[test]
fn read_and_records() {
    let counts = Counts {
        services: 2,
        cabinets: 3,
        streams: 1,
        pairs: 0,
    };
    assert_eq!(gazrieksne::read(&m()), Ok(counts));
    assert_eq!((counts.entries(), counts.lines()), (12, 6));
    assert_eq!(gazrieksne::service(&m(), 1), Some(2));
    assert_eq!(gazrieksne::service(&m(), 2), None);
    let second = Cabinet {
        parent: 0,
        capacity: 3,
        price: 2,
        up_capacity: 2,
        up_price: 1,
        down_capacity: 6,
        down_price: 1,
    };
    assert_eq!(gazrieksne::cabinet(&m(), 2), Some(second));
    let only = Stream {
        from: 0,
        to: 1,
        demand: 3,
    };
    assert_eq!(gazrieksne::stream(&m(), 0), Some(only));
    assert_eq!(gazrieksne::stream(&m(), 1), None);
    let refusal = gazrieksne::read(&m()[..67]).unwrap_err();
    assert_eq!((refusal.number, refusal.group), (3, Group::SheetWriter));
}

#[test]
fn check_and_plan() {
    assert_eq!(gazrieksne::check(&m(), &[1, 0]), Ok(18));
    let refusal = gazrieksne::check(&m(), &[2, 0]).unwrap_err();
    assert_eq!((refusal.number, refusal.group), (16, Group::PlanWriter));
    let (mut output, mut costs, mut choices) = ([9; 3], [9; 13], [9; 13]);
    let planned = gazrieksne::plan(&m(), &mut output, &mut costs, &mut choices);
    let right = Planned {
        cost: 15,
        count: 18,
    };
    assert_eq!(planned, Ok(right));
    assert_eq!(gazrieksne::check(&m(), &[1, 2]), Ok(15));
    assert_eq!(output, [0, 1, 9]);
    assert_eq!((costs[12], choices[12]), (9, 9));
    assert_eq!((&costs[..12], &choices[..12]), (&[0; 12][..], &[0; 12][..]));
    let refusal = gazrieksne::plan(&m(), &mut [], &mut costs, &mut choices).unwrap_err();
    assert_eq!((refusal.number, refusal.group), (10, Group::Lender));
}

/// M with root capacity 0 and another up capacity of cabinet 1.
fn m0(up: u16) -> Vec<u8> {
    let mut words = M;
    words[11] = 0;
    words[20] = up;
    bytes(&words)
}

/// The stream of 3 takes 5 of its line, of which 3 are priced.
#[test]
fn framing() {
    let (mut output, mut costs, mut choices) = ([9; 2], [9; 12], [9; 12]);
    assert_eq!(gazrieksne::check(&m0(5), &[1, 2]), Ok(15));
    let planned = gazrieksne::plan(&m0(5), &mut output, &mut costs, &mut choices);
    let right = Planned {
        cost: 15,
        count: 12,
    };
    assert_eq!((planned, output), (Ok(right), [1, 2]));
    let refusal = gazrieksne::check(&m0(4), &[1, 2]).unwrap_err();
    assert_eq!((refusal.number, refusal.group), (16, Group::PlanWriter));
    assert!(refusal.to_string().contains("framing"));
    let planned = gazrieksne::plan(&m0(4), &mut output, &mut costs, &mut choices);
    let no_plan = Refusal {
        number: 12,
        group: Group::Road,
        count: 10,
    };
    assert_eq!((planned, output), (Err(no_plan), [1, 2]));
}

#[test]
fn kept_tables() {
    let (mut output, mut costs, mut choices) = ([9; 3], [9; 13], [9; 13]);
    let kept = gazrieksne::keep(&m(), &mut output, &mut costs, &mut choices);
    let right = Planned {
        cost: 15,
        count: 18,
    };
    assert_eq!((kept, output), (Ok(right), [0, 1, 9]));
    assert_eq!((&costs[..12], costs[12]), (&COSTS[..], 9));
    assert_eq!((&choices[..12], choices[12]), (&CHOICES[..], 9));
    let refusal = gazrieksne::keep(&m(), &mut output, &mut costs[..11], &mut choices).unwrap_err();
    assert_eq!((refusal.number, refusal.group), (11, Group::Lender));
    assert_eq!((&costs[..12], &choices[..12]), (&COSTS[..], &CHOICES[..]));
}

/// Cabinet 2 gets dearer, so that only (0, 1) is left at 15; the root shuts, so that (1, 2) is all
/// there is, at 2 + 6 + 3 + 2 * 3; and 2 is cheap, with the root shut and with the root open.
#[test]
fn edits() {
    let (mut output, mut costs, mut choices) = ([9; 3], [9; 12], [9; 12]);
    let (mut other, mut costs_kept, mut choices_kept) = ([9; 3], [7; 12], [7; 12]);
    let kept = gazrieksne::keep(&m(), &mut output, &mut costs, &mut choices);
    assert_eq!(kept.map(|planned| planned.cost), Ok(15));
    for (cabinet, root, price, cost, count, plan) in [
        (2, 4, 3, 15, 18, [0, 1]),
        (0, 0, 3, 17, 12, [1, 2]),
        (2, 0, 0, 11, 12, [1, 2]),
        (0, 4, 0, 11, 18, [1, 2]),
    ] {
        let sheet = m_edited(root, price);
        let edited = gazrieksne::edit(&sheet, cabinet, &mut output, &mut costs, &mut choices);
        assert_eq!(edited, Ok(Planned { cost, count }));
        assert_eq!((&output[..2], output[2]), (&plan[..], 9));
        let kept = gazrieksne::keep(&sheet, &mut other, &mut costs_kept, &mut choices_kept);
        assert_eq!((kept, other), (edited, output));
        assert_eq!((costs, choices), (costs_kept, choices_kept));
    }
}

/// No refusal before 12 writes anything, and 12 leaves what the next edit needs.
#[test]
fn edits_refused() {
    let (mut output, mut costs, mut choices) = ([9; 3], COSTS, CHOICES);
    for cabinet in [3, 4, usize::MAX] {
        let refused = gazrieksne::edit(&m(), cabinet, &mut output, &mut costs, &mut choices);
        let number = refused.map_err(|refusal| (refusal.number, refusal.group, refusal.count));
        assert_eq!(number, Err((14, Group::PlanWriter, 0)));
    }
    let refusal = gazrieksne::edit(&m(), 3, &mut output[..1], &mut costs, &mut choices);
    assert_eq!(refusal.map_err(|refusal| refusal.number), Err(10));
    let refusal = gazrieksne::edit(&m(), 3, &mut output, &mut costs, &mut choices[..11]);
    assert_eq!(refusal.map_err(|refusal| refusal.number), Err(11));
    assert_eq!((output, costs, choices), ([9; 3], COSTS, CHOICES));
    // Two edits on, nothing carries the stream to the only cabinets with room.
    let edited = gazrieksne::edit(&m0(6), 0, &mut output, &mut costs, &mut choices);
    assert_eq!(
        (edited.map(|planned| planned.cost), output),
        (Ok(15), [1, 2, 9])
    );
    let no_plan = Refusal {
        number: 12,
        group: Group::Road,
        count: 10,
    };
    let edited = gazrieksne::edit(&m0(4), 1, &mut output, &mut costs, &mut choices);
    assert_eq!((edited, output), (Err(no_plan), [1, 2, 9]));
    let edited = gazrieksne::edit(&m0(6), 1, &mut output, &mut costs, &mut choices);
    assert_eq!(
        (edited.map(|planned| planned.cost), output),
        (Ok(15), [1, 2, 9])
    );
}

/// With all entries 0 the row of 1 says that both services cost nothing there. An edit of 2 takes
/// that for true, and the plan that the choices name then overfills 1.
#[test]
fn edits_of_other_tables() {
    let (mut output, mut costs, mut choices) = ([9; 2], [0; 12], [0; 12]);
    let refusal = gazrieksne::edit(&m(), 2, &mut output, &mut costs, &mut choices).unwrap_err();
    let unlike = Refusal {
        number: 23,
        group: Group::PlanWriter,
        count: 0,
    };
    assert_eq!((refusal, output), (unlike, [9; 2]));
    assert!(refusal.to_string().contains("run keep again"));
    assert_eq!((&costs[4..8], &choices[..4]), (&[0; 4][..], &[0; 4][..]));
    assert_eq!(costs[8..], COSTS[8..]);
}

#[test]
fn barred_pairs() {
    let sheet = m_barred(&[[0, 0], [1, 2]]);
    assert_eq!(gazrieksne::read(&sheet).map(|counts| counts.pairs), Ok(2));
    let last = Pair {
        service: 1,
        cabinet: 2,
    };
    assert_eq!(gazrieksne::barred(&sheet, 1), Some(last));
    assert_eq!(gazrieksne::barred(&sheet, 2), None);
    assert_eq!(gazrieksne::barred(&m(), 0), None);
    for (pair, length, number) in [([0, 0], 1, 18), ([2, 0], 0, 19), ([0, 3], 0, 19)] {
        let mut sheet = m_barred(&[pair]);
        sheet.truncate(sheet.len() - length);
        sheet[12] -= length as u8;
        let refusal = gazrieksne::read(&sheet).unwrap_err();
        assert_eq!(
            (refusal.number, refusal.group),
            (number, Group::SheetWriter)
        );
    }
}

#[test]
fn plans_without_barred_pairs() {
    let (mut output, mut costs, mut choices) = ([9; 2], [9; 12], [9; 12]);
    let sheet = m_barred(&[[0, 0]]);
    let refusal = gazrieksne::check(&sheet, &[0, 1]).unwrap_err();
    assert_eq!((refusal.number, refusal.group), (20, Group::PlanWriter));
    let planned = gazrieksne::plan(&sheet, &mut output, &mut costs, &mut choices);
    let right = Planned {
        cost: 15,
        count: 15,
    };
    assert_eq!((planned, output), (Ok(right), [1, 2]));
    let sheet = m_barred(&[[0, 0], [0, 1], [0, 2]]);
    let planned = gazrieksne::plan(&sheet, &mut output, &mut costs, &mut choices);
    let no_plan = Refusal {
        number: 12,
        group: Group::Road,
        count: 12,
    };
    assert_eq!((planned, output), (Err(no_plan), [1, 2]));
}

/// M with pairs behind it after so many unused bytes, which the length word tells of.
fn m_apart(pairs: &[[u16; 2]], gap: u8) -> Vec<u8> {
    let mut sheet = m_barred(pairs);
    sheet.splice(68..68, vec![7; gap.into()]);
    sheet[12] += gap;
    sheet[14] += gap;
    sheet
}

#[test]
fn tidy_copies() {
    let copy = m_barred(&[[0, 1], [1, 0]]);
    for pairs in [&[[0, 1], [1, 0]][..], &[[1, 0], [0, 1], [1, 0]]] {
        let mut output = [9; gazrieksne::LONGEST_COPY];
        let length = gazrieksne::tidy(&m_apart(pairs, 3), &mut output);
        assert_eq!(length, Ok(78));
        assert_eq!(
            (&output[..78], &output[78..]),
            (&copy[..], &[9; 11_360][..])
        );
    }
    let mut output = [9; 69];
    assert_eq!(gazrieksne::tidy(&m_apart(&[], 1), &mut output), Ok(68));
    assert_eq!((&output[..68], output[68]), (&m()[..], 9));
}

#[test]
fn tidy_copies_refused() {
    let mut output = [9; 77];
    let sheet = m_apart(&[[1, 0], [0, 1]], 5);
    let refusal = gazrieksne::tidy(&sheet, &mut output).unwrap_err();
    assert_eq!((refusal.number, refusal.group), (21, Group::Lender));
    assert!(refusal.to_string().contains("too short"));
    let refusal = gazrieksne::tidy(&sheet[1..], &mut []).unwrap_err();
    assert_eq!((refusal.number, refusal.group), (2, Group::SheetWriter));
    assert_eq!(output, [9; 77]);
}

/// The tariff of block price, slot price and tax rate.
fn tariff([block_price, slot_price, tax_rate]: [u64; 3]) -> Tariff {
    Tariff {
        block_price,
        slot_price,
        tax_rate,
    }
}

/// The stream of 3 is a load of 5, which starts a block on each link from 1 to 2. Of 58 cents 190
/// thousandths are 11.02.
#[test]
fn bills() {
    let mut lines = [9; 7];
    let bill = gazrieksne::bill(&m(), &[1, 2], tariff([7, 11, 190]), &mut lines);
    let right = Bill {
        net: 58,
        tax: 11,
        total: 69,
    };
    assert_eq!((bill, lines), (Ok(right), [7, 0, 0, 7, 22, 22, 9]));
    let limits = [
        gazrieksne::MAX_PRICE,
        gazrieksne::MAX_PRICE,
        gazrieksne::MAX_RATE,
    ];
    let mut lines = [9; gazrieksne::MOST_LINES];
    let bill = gazrieksne::bill(&m(), &[0, 1], tariff(limits), &mut lines);
    let right = Bill {
        net: 50_000,
        tax: 50_000,
        total: 100_000,
    };
    assert_eq!(bill, Ok(right));
    assert_eq!(lines[..6], [0, 10_000, 0, 0, 20_000, 20_000]);
    assert_eq!(lines[6..], [9; 402]);
}

/// 22 comes after the refusals of the sheet and of the plan, and no refusal writes a line.
#[test]
fn bills_refused() {
    let refused = |sheet: &[u8], plan: &[u16], parts, places| {
        let mut lines = vec![9; places];
        let refusal = gazrieksne::bill(sheet, plan, tariff(parts), &mut lines).unwrap_err();
        assert_eq!(lines, vec![9; places]);
        refusal
    };
    let past = [[10_001, 0, 0], [0, 10_001, 0], [0, 0, 1_001], [u64::MAX; 3]];
    for (parts, places) in past
        .map(|parts| (parts, 6))
        .into_iter()
        .chain([([1; 3], 5)])
    {
        let refusal = refused(&m(), &[0, 1], parts, places);
        assert_eq!((refusal.number, refusal.group), (22, Group::Lender));
        assert!(refusal.to_string().contains("tax rate"));
        let refusal = refused(&m(), &[2, 0], parts, places);
        assert_eq!((refusal.number, refusal.group), (16, Group::PlanWriter));
        let refusal = refused(&m()[..67], &[0, 1], parts, places);
        assert_eq!((refusal.number, refusal.group), (3, Group::SheetWriter));
    }
}

#[test]
fn figures() {
    assert_eq!(gazrieksne::weigh(10, 1, 2, 3), (6, true));
    assert_eq!(gazrieksne::bound(2, 3), Ok(18));
    assert!(gazrieksne::bound(11, 3).is_err());
}
