//! The calls that plan: with whole tables, and with a span of them.

use crate::{Refusal, Span, calls};

/// The cost of the plan found and the count of splits weighed.
#[derive(Clone, Copy, Debug, PartialEq, Eq)]
pub struct Planned {
    pub cost: u64,
    pub count: u64,
}

/// Finds a cheapest plan: of all cheapest plans the one with the lowest cabinet for service 0, then
/// for service 1, and so on. It is written to the first places of the output, one a service; the
/// tables are to work in, `Counts::entries` each.
pub fn plan(
    sheet: &[u8],
    output: &mut [u16],
    costs: &mut [u64],
    choices: &mut [u16],
) -> Result<Planned, Refusal> {
    let mut answer = [0; 3];
    let number = calls::plan(sheet, output, costs, choices, &mut answer);
    planned(number, answer)
}

/// Finds a cheapest plan as `plan` does, and leaves in the tables what `edit` needs: after a plan
/// and after refusal 12 (no valid plan) their first `Counts::entries` entries are filled. They hold
/// nothing but what follows from the sheet, and may be copied, stored and lent again.
pub fn keep(
    sheet: &[u8],
    output: &mut [u16],
    costs: &mut [u64],
    choices: &mut [u16],
) -> Result<Planned, Refusal> {
    let mut answer = [0; 3];
    let number = calls::keep(sheet, output, costs, choices, &mut answer);
    planned(number, answer)
}

/// Plans anew after one cabinet was changed: its capacity, its price, or the capacities and prices of
/// its link, but not its parent. A capacity of 0 makes a joint of it, any other a cabinet again. The
/// tables must be as `keep` or the last `edit` left them, and the sheet must differ from the one of
/// that call in this cabinet only. Then answer, output and tables are those of `keep` on this sheet;
/// but only the rows from the cabinet up to the root are built anew, so that an edit costs the joins
/// on that path.
///
/// The cabinet's number must be one of the sheet's, else the refusal is 14. Refusal 12 (no valid
/// plan) leaves tables that the next edit can use; all refusals that come before it leave everything
/// as it was. With any other tables there is still no wrong plan: one that is handed out is valid at
/// its cost, though it need not be a cheapest one; else the refusal is 12, or 23 where the tables do
/// not fit the sheet, and then `keep` has to be called.
pub fn edit(
    sheet: &[u8],
    cabinet: usize,
    output: &mut [u16],
    costs: &mut [u64],
    choices: &mut [u16],
) -> Result<Planned, Refusal> {
    let mut answer = [0; 3];
    let number = calls::edit(sheet, cabinet, output, costs, choices, &mut answer);
    planned(number, answer)
}

/// Plans as `plan` does, with a span of the tables: its entries are the tables that the call works
/// in, and no entry outside it ever changes. So several roads can be planned in one pair of tables,
/// each in a span of its own, in any order, and each as if it had tables of its own.
///
/// The span must end within both tables, else the refusal is 24, and it must have `Counts::entries`
/// entries or more, else the refusal is 11; so it is with `keep_span` and `edit_span`.
pub fn plan_span(
    sheet: &[u8],
    output: &mut [u16],
    costs: &mut [u64],
    choices: &mut [u16],
    span: Span,
) -> Result<Planned, Refusal> {
    let mut answer = [0; 3];
    let number = calls::plan_span(sheet, output, costs, choices, span, &mut answer);
    planned(number, answer)
}

/// Plans and leaves what `edit_span` needs, as `keep` does, with a span of the tables.
pub fn keep_span(
    sheet: &[u8],
    output: &mut [u16],
    costs: &mut [u64],
    choices: &mut [u16],
    span: Span,
) -> Result<Planned, Refusal> {
    let mut answer = [0; 3];
    let number = calls::keep_span(sheet, output, costs, choices, span, &mut answer);
    planned(number, answer)
}

/// Plans anew after one cabinet was changed, as `edit` does, with a span of the tables: the one
/// that `keep_span` or the last `edit_span` for this road was given. What is done in between in
/// spans that share no entry with it does not matter.
pub fn edit_span(
    sheet: &[u8],
    cabinet: usize,
    output: &mut [u16],
    costs: &mut [u64],
    choices: &mut [u16],
    span: Span,
) -> Result<Planned, Refusal> {
    let mut answer = [0; 3];
    let number = calls::edit_span(sheet, cabinet, output, costs, choices, span, &mut answer);
    planned(number, answer)
}

/// What a call that plans answers, by its refusal and its group, cost and count.
fn planned(number: u64, [group, cost, count]: [u64; 3]) -> Result<Planned, Refusal> {
    Refusal::of(number, group, count).map_or(Ok(Planned { cost, count }), Err)
}
