//! The proved planner as the comparison calls it.

use differ::{Spanned, Subject};
use gazrieksne::calls;

pub struct Proved;

/// The span as the interface names it.
fn named(span: second::Span) -> gazrieksne::Span {
    gazrieksne::Span {
        first: span.first,
        number: span.number,
    }
}

impl Subject for Proved {
    fn read(&self, sheet: &[u8], counts: &mut [u64; 5]) -> u64 {
        calls::read(sheet, counts)
    }

    fn service(&self, sheet: &[u8], number: usize, record: &mut [u64; 1]) -> u64 {
        calls::service(sheet, number, record)
    }

    fn cabinet(&self, sheet: &[u8], number: usize, record: &mut [u64; 7]) -> u64 {
        calls::cabinet(sheet, number, record)
    }

    fn stream(&self, sheet: &[u8], number: usize, record: &mut [u64; 3]) -> u64 {
        calls::stream(sheet, number, record)
    }

    fn barred(&self, sheet: &[u8], number: usize, record: &mut [u64; 2]) -> u64 {
        calls::barred(sheet, number, record)
    }

    fn check(&self, sheet: &[u8], plan: &[u16], answer: &mut [u64; 2]) -> u64 {
        calls::check(sheet, plan, answer)
    }

    fn plan(
        &self,
        sheet: &[u8],
        output: &mut [u16],
        costs: &mut [u64],
        choices: &mut [u16],
        answer: &mut [u64; 3],
    ) -> u64 {
        calls::plan(sheet, output, costs, choices, answer)
    }

    fn keep(
        &self,
        sheet: &[u8],
        output: &mut [u16],
        costs: &mut [u64],
        choices: &mut [u16],
        answer: &mut [u64; 3],
    ) -> u64 {
        calls::keep(sheet, output, costs, choices, answer)
    }

    fn edit(
        &self,
        sheet: &[u8],
        cabinet: usize,
        output: &mut [u16],
        costs: &mut [u64],
        choices: &mut [u16],
        answer: &mut [u64; 3],
    ) -> u64 {
        calls::edit(sheet, cabinet, output, costs, choices, answer)
    }

    fn plan_span(
        &self,
        sheet: &[u8],
        output: &mut [u16],
        tables: Spanned,
        answer: &mut [u64; 3],
    ) -> u64 {
        let Spanned {
            costs,
            choices,
            span,
        } = tables;
        calls::plan_span(sheet, output, costs, choices, named(span), answer)
    }

    fn keep_span(
        &self,
        sheet: &[u8],
        output: &mut [u16],
        tables: Spanned,
        answer: &mut [u64; 3],
    ) -> u64 {
        let Spanned {
            costs,
            choices,
            span,
        } = tables;
        calls::keep_span(sheet, output, costs, choices, named(span), answer)
    }

    fn edit_span(
        &self,
        sheet: &[u8],
        cabinet: usize,
        output: &mut [u16],
        tables: Spanned,
        answer: &mut [u64; 3],
    ) -> u64 {
        let Spanned {
            costs,
            choices,
            span,
        } = tables;
        calls::edit_span(sheet, cabinet, output, costs, choices, named(span), answer)
    }

    fn bill(
        &self,
        sheet: &[u8],
        plan: &[u16],
        [block_price, slot_price, tax_rate]: [u64; 3],
        lines: &mut [u64],
        answer: &mut [u64; 4],
    ) -> u64 {
        calls::bill(
            sheet,
            plan,
            block_price,
            slot_price,
            tax_rate,
            lines,
            answer,
        )
    }

    fn tidy(&self, sheet: &[u8], output: &mut [u8], answer: &mut [u64; 2]) -> u64 {
        calls::tidy(sheet, output, answer)
    }

    fn weigh(&self, [best, placed, rest, link]: [u64; 4], answer: &mut [u64; 1]) -> u64 {
        calls::weigh(best, placed, rest, link, answer)
    }

    fn bound(&self, services: usize, cabinets: usize, answer: &mut [u64; 2]) -> u64 {
        calls::bound(services, cabinets, answer)
    }
}
