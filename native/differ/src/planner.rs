//! Compares the planner.

use crate::alike::Alike;
use crate::guarded::Guarded;
use crate::memory::{Asked, Memory};
use crate::{Joint, Subject, Tally};
use plain::Rules;
use second::plan::{MOST_PLANS, plans};
use second::random::{Lent, Random};
use second::span::cleared;
use second::{Answer, Tables};

/// The refusal, the group, the cost and the count; the plan written; and all that was lent: for a
/// sheet and for its tidy copy.
pub fn plan(
    subject: &dyn Subject,
    alike: &Alike,
    lent: Lent,
    right: &Answer,
    random: &mut Random,
    tally: &mut Tally,
) -> Result<(), String> {
    alike.each(|sheet| {
        solve(subject, sheet, lent, right, random)?;
        tally.answer("plan", right.refusal);
        Ok(())
    })?;
    if right.ties > 0 {
        tally.tie(is_large(alike.sheet));
    }
    if framing_decides(alike.sheet, right) {
        tally.framed_road();
    }
    if let Ok(records) = second::read(alike.sheet) {
        tally.joints(&Joint::of_road(&records, right));
    }
    Ok(())
}

/// The right answer is a plan or 12, and its cost, refusal or count would be another if framing took
/// no line.
fn framing_decides(sheet: &[u8], right: &Answer) -> bool {
    let figures = match right.refusal {
        0 => (Some(right.cost), right.count),
        12 => (None, right.count),
        _ => return false,
    };
    second::read(sheet).is_ok_and(|records| plain::figures(&records, Rules::UNFRAMED) != figures)
}

/// One call, which must give this answer and clear the entries that it worked in.
fn solve(
    subject: &dyn Subject,
    sheet: &[u8],
    lent: Lent,
    right: &Answer,
    random: &mut Random,
) -> Result<(), String> {
    let cleared = match (right.refusal, second::read(sheet)) {
        (0 | 12, Ok(records)) => cleared(&records),
        _ => Tables::default(),
    };
    let mut memory = Memory::dirty(random, lent);
    let given = memory.call(subject, Asked::Plan, sheet, lent, random);
    given
        .and_then(|given| memory.expect(&given, sheet, right, &cleared))
        .map_err(|what| format!("plan with {lent:?}: {what}"))
}

/// The output's name, with what was written where the first plan should be, and what the check says
/// of that.
pub fn written(sheet: &[u8], output: &Guarded<u16>, plan: &[u16]) -> String {
    let written = &output.inside()[..plan.len()];
    match written == plan {
        true => "output".to_string(),
        false => {
            let judged = second::check(sheet, written);
            format!("the check says {judged:?} of {written:?}, the first plan is {plan:?}: output")
        }
    }
}

/// The sheet is accepted and has too many plans to try.
fn is_large(sheet: &[u8]) -> bool {
    second::read(sheet).is_ok_and(|records| plans(&records) > MOST_PLANS)
}

/// The right answer, from the planner that tries every plan or, for a large road, by least costs.
pub fn right(sheet: &[u8], lent: Lent) -> Answer {
    let Lent {
        output,
        costs,
        choices,
    } = lent;
    match is_large(sheet) {
        true => by_least_costs(sheet, lent),
        false => second::plan(sheet, output, costs, choices),
    }
}

/// The answer of the planner by rows, with the first plan in place of its own. If the two differ,
/// there is a tie.
fn by_least_costs(sheet: &[u8], lent: Lent) -> Answer {
    let (mut output, mut costs) = (vec![0; lent.output], vec![0; lent.costs]);
    let answer = plain::plan(sheet, &mut output, &mut costs, &mut vec![0; lent.choices]);
    if answer.plan.is_none() {
        return answer;
    }
    let records = second::read(sheet).unwrap_or_default();
    let plan = plain::first_plan(&records);
    Answer {
        ties: u64::from(plan != answer.plan),
        plan,
        ..answer
    }
}
