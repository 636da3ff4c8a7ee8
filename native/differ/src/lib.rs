//! Compares any implementation of the interface with the second planner: every answer, and every
//! place of what is lent.
#![forbid(unsafe_code)]

mod alike;
mod bills;
mod breaker;
mod checks;
mod editor;
mod event;
mod figures;
mod guarded;
mod joint;
mod keeper;
mod memory;
mod order;
mod planner;
mod reader;
mod refused;
mod sharing;
mod spans;
mod spot;
mod subject;
mod tally;
mod turn;
mod writer;

pub use event::Event;
pub use figures::compare_bounds;
pub use joint::Joint;
pub use memory::Call;
pub use sharing::compare_sharing;
pub use spans::compare_spans;
pub use spot::Spot;
pub use subject::{Spanned, Subject};
pub use tally::Tally;
pub use turn::Turn;

use alike::Alike;
use bills::Road;
use keeper::Right;
use second::hex::dump;
use second::random::{Case, Random};
use second::{Sheet, Tables};

/// Once in so many small roads there is a list of calls on its span and on another road's.
const SHARING: usize = 2;

/// Makes all calls of a case, and some of those that take no sheet. The error tells the first
/// difference.
pub fn compare(
    subject: &dyn Subject,
    case: &Case,
    random: &mut Random,
    tally: &mut Tally,
) -> Result<(), String> {
    tally.case(case);
    calls(subject, case, random, tally).map_err(|what| describe(case, &what))
}

fn calls(
    subject: &dyn Subject,
    case: &Case,
    random: &mut Random,
    tally: &mut Tally,
) -> Result<(), String> {
    let right = second::read(&case.sheet);
    let alike = Alike::new(&case.sheet);
    reader::read(subject, &case.sheet, &right, random, tally)?;
    reader::records(subject, &case.sheet, &right, random, tally)?;
    writer::tidy(subject, &alike, random, tally)?;
    writer::copy(subject, &alike, random, tally)?;
    let billed = Road {
        alike: &alike,
        records: &right,
    };
    for plan in &case.plans {
        checks::check(subject, &alike, plan, random, tally)?;
        bills::bills(subject, &billed, plan, &case.tariffs, random, tally)?;
    }
    if let Some(plan) = billed_by_limits(case) {
        bills::limits(subject, &billed, plan, random, tally)?;
    }
    let kept = right.as_ref().ok().map(Right::of);
    plans(subject, case, &alike, kept.as_ref(), random, tally)?;
    let kept = right.as_ref().ok().zip(kept.as_ref());
    let sheet = &case.sheet;
    let road = spans::Road { sheet, kept };
    spans(subject, &road, &mut random.beside(), tally)?;
    if let Ok(records) = &right {
        edits(subject, records, random, tally)?;
    }
    figures::weigh(subject, random, tally)?;
    figures::bound(subject, random, tally)
}

/// The planner and the keeping call with all that is lent.
fn plans(
    subject: &dyn Subject,
    case: &Case,
    alike: &Alike,
    kept: Option<&Right>,
    random: &mut Random,
    tally: &mut Tally,
) -> Result<(), String> {
    let none = Tables::default();
    let tables = kept.map_or(&none, |kept| &kept.tables);
    for &lent in &case.lent {
        let right = planner::right(&case.sheet, lent);
        planner::plan(subject, alike, lent, &right, random, tally)?;
        keeper::keep(subject, alike, lent, (&right, tables), random, tally)?;
    }
    Ok(())
}

/// Calls on spans, of large roads for some; and once in so many times a list of calls on two spans.
fn spans(
    subject: &dyn Subject,
    road: &spans::Road,
    random: &mut Random,
    tally: &mut Tally,
) -> Result<(), String> {
    let small = road.kept.filter(|(records, _)| editor::is_small(records));
    if road.kept.is_some() && small.is_none() && !random.once_in(3) {
        return Ok(());
    }
    spans::spans(subject, road, random, tally)?;
    match small {
        Some((records, _)) if random.once_in(SHARING) => {
            compare_sharing(subject, records, random, tally)
        }
        _ => Ok(()),
    }
}

/// A list of edits, and some that break the rule; of large roads for some.
fn edits(
    subject: &dyn Subject,
    records: &Sheet,
    random: &mut Random,
    tally: &mut Tally,
) -> Result<(), String> {
    let breaches = match editor::is_small(records) {
        true => 3,
        false if random.once_in(3) => 1,
        false => return Ok(()),
    };
    editor::edits(subject, records, random, tally)?;
    for _ in 0..breaches {
        breaker::breach(subject, records, random, tally)?;
    }
    Ok(())
}

/// The first plan of a case that is valid, or else the first.
fn billed_by_limits(case: &Case) -> Option<&Vec<u16>> {
    let mut plans = case.plans.iter();
    let valid = plans.find(|plan| second::check(&case.sheet, plan).is_ok());
    valid.or(case.plans.first())
}

/// The difference with the sheet in full.
fn describe(case: &Case, what: &str) -> String {
    let Case { origin, sheet, .. } = case;
    format!(
        "{what}\ncase: {origin:?}\nsheet of {} bytes:\n{}",
        sheet.len(),
        dump(sheet)
    )
}
