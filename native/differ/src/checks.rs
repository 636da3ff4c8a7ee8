//! Compares the check.

use crate::alike::Alike;
use crate::guarded::{Guarded, same};
use crate::{Joint, Subject, Tally};
use second::check::only_framing;
use second::group;
use second::random::Random;

/// The refusal, the group and the cost of a plan, for a sheet and for its tidy copy.
pub fn check(
    subject: &dyn Subject,
    alike: &Alike,
    plan: &[u16],
    random: &mut Random,
    tally: &mut Tally,
) -> Result<(), String> {
    let right = second::check(alike.sheet, plan);
    alike.each(|sheet| {
        judge(subject, sheet, plan, right, random)?;
        tally.answer("check", right.err().unwrap_or(0));
        Ok(())
    })?;
    if let Ok(records) = second::read(alike.sheet) {
        tally.joints(&Joint::of_plan(&records, plan, right));
        if only_framing(&records, plan) {
            tally.framed_plan();
        }
    }
    Ok(())
}

/// One call, which must give this cost or refusal.
fn judge(
    subject: &dyn Subject,
    sheet: &[u8],
    plan: &[u16],
    right: Result<u64, u64>,
    random: &mut Random,
) -> Result<(), String> {
    let (right, cost) = match right {
        Ok(cost) => (0, cost),
        Err(refusal) => (refusal, 0),
    };
    let call = format!("check {plan:?}");
    let sheet = Guarded::holding(random, sheet);
    let plan = Guarded::holding(random, plan);
    let mut answer = Guarded::dirty(random, 2);
    let refusal = subject.check(sheet.inside(), plan.inside(), answer.array());
    same(&call, refusal, right)?;
    answer.expect(&format!("{call}: answer"), &[group(right), cost])?;
    sheet.expect_same(&format!("{call}: sheet"))?;
    plan.expect_same(&format!("{call}: plan"))
}
