//! Compares the bill.

use crate::alike::Alike;
use crate::guarded::{Guarded, same};
use crate::{Subject, Tally};
use second::bill::{bill_sheet, number_of_lines};
use second::feature::features;
use second::random::Random;
use second::random::tariff::{LIMITS, outside, sharp, within};
use second::{Bill, Sheet, Tariff, group};

/// A sheet with its tidy copy, and its records or its refusal.
pub struct Road<'a> {
    pub alike: &'a Alike<'a>,
    pub records: &'a Result<Sheet, u64>,
}

impl Road<'_> {
    /// How many lines its bills have; some, where it is refused.
    fn exact(&self) -> usize {
        self.records.as_ref().map_or(12, number_of_lines)
    }
}

/// Bills of a plan, for a sheet and for its tidy copy: by tariffs within their limits and outside,
/// by one that leaves about half a cent of tax, and by those given; with enough places and with too
/// few.
pub fn bills(
    subject: &dyn Subject,
    road: &Road,
    plan: &[u16],
    given: &[Tariff],
    random: &mut Random,
    tally: &mut Tally,
) -> Result<(), String> {
    let exact = road.exact();
    let mut asked = vec![
        (within(random), exact),
        (within(random), more(random, exact)),
        (within(random), fewer(random, exact)),
        (outside(random), more(random, exact)),
        (outside(random), fewer(random, exact)),
    ];
    let records = road.records.as_ref().ok();
    let sharp = records.and_then(|records| sharp(random, records, plan));
    asked.extend(sharp.map(|tariff| (tariff, exact)));
    for &tariff in given {
        asked.extend([0, exact.saturating_sub(1), exact, exact + 1].map(|places| (tariff, places)));
    }
    each(subject, road, plan, &asked, random, tally)
}

/// Bills of a plan by tariffs of which each part in turn is 0, at its limit, just above it and the
/// largest number.
pub fn limits(
    subject: &dyn Subject,
    road: &Road,
    plan: &[u16],
    random: &mut Random,
    tally: &mut Tally,
) -> Result<(), String> {
    let mut asked = vec![];
    for (part, limit) in LIMITS.into_iter().enumerate() {
        for figure in [0, limit, limit + 1, u64::MAX] {
            let mut parts = within(random).parts();
            parts[part] = figure;
            asked.push((Tariff::of(parts), road.exact()));
        }
    }
    each(subject, road, plan, &asked, random, tally)
}

/// Just enough places, one more, or many more.
fn more(random: &mut Random, exact: usize) -> usize {
    let many = exact + random.between(2, 40);
    random.pick(&[exact, exact + 1, exact + 1, many])
}

/// One place short, none at all, or some short.
fn fewer(random: &mut Random, exact: usize) -> usize {
    let some = random.below(exact);
    random.pick(&[exact.saturating_sub(1), exact.saturating_sub(1), 0, some])
}

/// Each of these calls, with a tariff and a number of places.
fn each(
    subject: &dyn Subject,
    road: &Road,
    plan: &[u16],
    asked: &[(Tariff, usize)],
    random: &mut Random,
    tally: &mut Tally,
) -> Result<(), String> {
    for &(tariff, places) in asked {
        let right = right(road.records, plan, tariff, places);
        let mut compare = |sheet: &[u8]| {
            let written = make(subject, sheet, plan, (tariff, places), &right, random);
            written.map_err(|what| format!("bill {plan:?} by {tariff:?}: {what}"))
        };
        road.alike.each(&mut compare)?;
        let answer = right.map(|(_, figures)| figures);
        tally.answer("bill", answer.err().unwrap_or(0));
        tally.bill(&features(road.records, plan, tariff, places, answer));
    }
    Ok(())
}

/// The lines and the figures, or the refusal.
fn right(
    records: &Result<Sheet, u64>,
    plan: &[u16],
    tariff: Tariff,
    places: usize,
) -> Result<(Vec<u64>, Bill), u64> {
    let records = records.as_ref().map_err(|&refusal| refusal)?;
    let mut lines = vec![0; places];
    let figures = bill_sheet(records, plan, tariff, &mut lines)?;
    lines.truncate(number_of_lines(records));
    Ok((lines, figures))
}

/// One call, which must write these lines and give these figures, or this refusal.
fn make(
    subject: &dyn Subject,
    sheet: &[u8],
    plan: &[u16],
    (tariff, places): (Tariff, usize),
    right: &Result<(Vec<u64>, Bill), u64>,
    random: &mut Random,
) -> Result<(), String> {
    let (refusal, values, lines) = match right {
        Ok((lines, bill)) => (0, [0, bill.net, bill.tax, bill.total], &lines[..]),
        Err(refusal) => (*refusal, [group(*refusal), 0, 0, 0], &[][..]),
    };
    let sheet = Guarded::holding(random, sheet);
    let plan = Guarded::holding(random, plan);
    let mut written = Guarded::dirty(random, places);
    let mut answer = Guarded::dirty(random, 4);
    let answered = subject.bill(
        sheet.inside(),
        plan.inside(),
        tariff.parts(),
        written.inside_mut(),
        answer.array(),
    );
    same(&format!("with {places} places"), answered, refusal)?;
    answer.expect("answer", &values)?;
    written.expect("lines", lines)?;
    sheet.expect_same("sheet")?;
    plan.expect_same("plan")
}
