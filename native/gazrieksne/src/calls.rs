//! The functions of the archive as safe calls of the same shape: slices for pointers and lengths,
//! arrays for results.
//!
//! Safety is the same for all: a reference is never null, is aligned, and points to as many
//! elements as its length says; references that are written overlap no other.

use crate::{Span, raw};

/// `gz_read`: the refusal; counts are group, services, cabinets, streams, barred pairs.
pub fn read(sheet: &[u8], counts: &mut [u64; 5]) -> u64 {
    // SAFETY: see the head of this file.
    unsafe { raw::gz_read(sheet.as_ptr(), sheet.len(), counts) }
}

/// `gz_service`: 1 if the record is there.
pub fn service(sheet: &[u8], number: usize, record: &mut [u64; 1]) -> u64 {
    // SAFETY: see the head of this file.
    unsafe { raw::gz_service(sheet.as_ptr(), sheet.len(), number, record) }
}

/// `gz_cabinet`: 1 if the record is there.
pub fn cabinet(sheet: &[u8], number: usize, record: &mut [u64; 7]) -> u64 {
    // SAFETY: see the head of this file.
    unsafe { raw::gz_cabinet(sheet.as_ptr(), sheet.len(), number, record) }
}

/// `gz_stream`: 1 if the record is there.
pub fn stream(sheet: &[u8], number: usize, record: &mut [u64; 3]) -> u64 {
    // SAFETY: see the head of this file.
    unsafe { raw::gz_stream(sheet.as_ptr(), sheet.len(), number, record) }
}

/// `gz_barred`: 1 if the pair is there.
pub fn barred(sheet: &[u8], number: usize, record: &mut [u64; 2]) -> u64 {
    // SAFETY: see the head of this file.
    unsafe { raw::gz_barred(sheet.as_ptr(), sheet.len(), number, record) }
}

/// `gz_check`: the refusal; the answer is group, cost.
pub fn check(sheet: &[u8], plan: &[u16], answer: &mut [u64; 2]) -> u64 {
    // SAFETY: see the head of this file.
    unsafe {
        raw::gz_check(
            sheet.as_ptr(),
            sheet.len(),
            plan.as_ptr(),
            plan.len(),
            answer,
        )
    }
}

/// `gz_plan`: the refusal; the answer is group, cost, count.
pub fn plan(
    sheet: &[u8],
    output: &mut [u16],
    costs: &mut [u64],
    choices: &mut [u16],
    answer: &mut [u64; 3],
) -> u64 {
    whole(raw::gz_plan, sheet, output, costs, choices, answer)
}

/// `gz_keep`: the refusal; the answer is group, cost, count.
pub fn keep(
    sheet: &[u8],
    output: &mut [u16],
    costs: &mut [u64],
    choices: &mut [u16],
    answer: &mut [u64; 3],
) -> u64 {
    whole(raw::gz_keep, sheet, output, costs, choices, answer)
}

/// One of the archive's functions that plan, with whole tables.
fn whole(
    function: raw::Planning,
    sheet: &[u8],
    output: &mut [u16],
    costs: &mut [u64],
    choices: &mut [u16],
    answer: &mut [u64; 3],
) -> u64 {
    // SAFETY: see the head of this file.
    unsafe {
        function(
            sheet.as_ptr(),
            sheet.len(),
            output.as_mut_ptr(),
            output.len(),
            costs.as_mut_ptr(),
            costs.len(),
            choices.as_mut_ptr(),
            choices.len(),
            answer,
        )
    }
}

/// `gz_edit`: the refusal; the answer is group, cost, count.
pub fn edit(
    sheet: &[u8],
    cabinet: usize,
    output: &mut [u16],
    costs: &mut [u64],
    choices: &mut [u16],
    answer: &mut [u64; 3],
) -> u64 {
    // SAFETY: see the head of this file.
    unsafe {
        raw::gz_edit(
            sheet.as_ptr(),
            sheet.len(),
            cabinet,
            output.as_mut_ptr(),
            output.len(),
            costs.as_mut_ptr(),
            costs.len(),
            choices.as_mut_ptr(),
            choices.len(),
            answer,
        )
    }
}

/// `gz_plan_span`: the refusal; the answer is group, cost, count.
pub fn plan_span(
    sheet: &[u8],
    output: &mut [u16],
    costs: &mut [u64],
    choices: &mut [u16],
    span: Span,
    answer: &mut [u64; 3],
) -> u64 {
    in_span(
        raw::gz_plan_span,
        sheet,
        output,
        costs,
        choices,
        span,
        answer,
    )
}

/// `gz_keep_span`: the refusal; the answer is group, cost, count.
pub fn keep_span(
    sheet: &[u8],
    output: &mut [u16],
    costs: &mut [u64],
    choices: &mut [u16],
    span: Span,
    answer: &mut [u64; 3],
) -> u64 {
    in_span(
        raw::gz_keep_span,
        sheet,
        output,
        costs,
        choices,
        span,
        answer,
    )
}

/// One of the archive's functions that plan, with a span of the tables. Any numbers may be named: a
/// span that is not within the tables is refused.
fn in_span(
    function: raw::PlanningInSpan,
    sheet: &[u8],
    output: &mut [u16],
    costs: &mut [u64],
    choices: &mut [u16],
    span: Span,
    answer: &mut [u64; 3],
) -> u64 {
    // SAFETY: see the head of this file.
    unsafe {
        function(
            sheet.as_ptr(),
            sheet.len(),
            output.as_mut_ptr(),
            output.len(),
            costs.as_mut_ptr(),
            costs.len(),
            choices.as_mut_ptr(),
            choices.len(),
            span.first,
            span.number,
            answer,
        )
    }
}

/// `gz_edit_span`: the refusal; the answer is group, cost, count.
pub fn edit_span(
    sheet: &[u8],
    cabinet: usize,
    output: &mut [u16],
    costs: &mut [u64],
    choices: &mut [u16],
    span: Span,
    answer: &mut [u64; 3],
) -> u64 {
    // SAFETY: see the head of this file.
    unsafe {
        raw::gz_edit_span(
            sheet.as_ptr(),
            sheet.len(),
            cabinet,
            output.as_mut_ptr(),
            output.len(),
            costs.as_mut_ptr(),
            costs.len(),
            choices.as_mut_ptr(),
            choices.len(),
            span.first,
            span.number,
            answer,
        )
    }
}

/// `gz_bill`: the refusal; the answer is group, net, tax, total.
pub fn bill(
    sheet: &[u8],
    plan: &[u16],
    block_price: u64,
    slot_price: u64,
    tax_rate: u64,
    lines: &mut [u64],
    answer: &mut [u64; 4],
) -> u64 {
    // SAFETY: see the head of this file.
    unsafe {
        raw::gz_bill(
            sheet.as_ptr(),
            sheet.len(),
            plan.as_ptr(),
            plan.len(),
            block_price,
            slot_price,
            tax_rate,
            lines.as_mut_ptr(),
            lines.len(),
            answer,
        )
    }
}

/// `gz_tidy`: the refusal; the answer is group, length of the copy.
pub fn tidy(sheet: &[u8], output: &mut [u8], answer: &mut [u64; 2]) -> u64 {
    // SAFETY: see the head of this file.
    unsafe {
        raw::gz_tidy(
            sheet.as_ptr(),
            sheet.len(),
            output.as_mut_ptr(),
            output.len(),
            answer,
        )
    }
}

/// `gz_weigh`: the flag; the answer is the figure.
pub fn weigh(best: u64, placed: u64, rest: u64, link: u64, answer: &mut [u64; 1]) -> u64 {
    // SAFETY: see the head of this file.
    unsafe { raw::gz_weigh(best, placed, rest, link, answer) }
}

/// `gz_bound`: the refusal; the answer is group, bound.
pub fn bound(services: usize, cabinets: usize, answer: &mut [u64; 2]) -> u64 {
    // SAFETY: see the head of this file.
    unsafe { raw::gz_bound(services, cabinets, answer) }
}
