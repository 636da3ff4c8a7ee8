//! The interface, as the comparison calls it.

use second::Span;

/// Both tables, and the span of them that a call is to work in.
pub struct Spanned<'a> {
    pub costs: &'a mut [u64],
    pub choices: &'a mut [u16],
    pub span: Span,
}

/// An implementation of the interface. Calls give the refusal number, 0 for none, but for the
/// record calls (1 if the record is there) and `weigh` (its flag). All places of `counts` and
/// `answer` are written on every call; `record` only when the record is there.
pub trait Subject {
    /// Counts: group, services, cabinets, streams, barred pairs.
    fn read(&self, sheet: &[u8], counts: &mut [u64; 5]) -> u64;
    fn service(&self, sheet: &[u8], number: usize, record: &mut [u64; 1]) -> u64;
    fn cabinet(&self, sheet: &[u8], number: usize, record: &mut [u64; 7]) -> u64;
    fn stream(&self, sheet: &[u8], number: usize, record: &mut [u64; 3]) -> u64;
    fn barred(&self, sheet: &[u8], number: usize, record: &mut [u64; 2]) -> u64;
    /// Answer: group, cost.
    fn check(&self, sheet: &[u8], plan: &[u16], answer: &mut [u64; 2]) -> u64;
    /// Answer: group, cost, count.
    fn plan(
        &self,
        sheet: &[u8],
        output: &mut [u16],
        costs: &mut [u64],
        choices: &mut [u16],
        answer: &mut [u64; 3],
    ) -> u64;
    /// Answer: group, cost, count.
    fn keep(
        &self,
        sheet: &[u8],
        output: &mut [u16],
        costs: &mut [u64],
        choices: &mut [u16],
        answer: &mut [u64; 3],
    ) -> u64;
    /// Answer: group, cost, count.
    fn edit(
        &self,
        sheet: &[u8],
        cabinet: usize,
        output: &mut [u16],
        costs: &mut [u64],
        choices: &mut [u16],
        answer: &mut [u64; 3],
    ) -> u64;
    /// Answer: group, cost, count.
    fn plan_span(
        &self,
        sheet: &[u8],
        output: &mut [u16],
        tables: Spanned,
        answer: &mut [u64; 3],
    ) -> u64;
    /// Answer: group, cost, count.
    fn keep_span(
        &self,
        sheet: &[u8],
        output: &mut [u16],
        tables: Spanned,
        answer: &mut [u64; 3],
    ) -> u64;
    /// Answer: group, cost, count.
    fn edit_span(
        &self,
        sheet: &[u8],
        cabinet: usize,
        output: &mut [u16],
        tables: Spanned,
        answer: &mut [u64; 3],
    ) -> u64;
    /// Tariff: block price, slot price, tax rate. Answer: group, net, tax, total.
    fn bill(
        &self,
        sheet: &[u8],
        plan: &[u16],
        tariff: [u64; 3],
        lines: &mut [u64],
        answer: &mut [u64; 4],
    ) -> u64;
    /// Answer: group, length of the copy.
    fn tidy(&self, sheet: &[u8], output: &mut [u8], answer: &mut [u64; 2]) -> u64;
    /// Answer: the figure.
    fn weigh(&self, figures: [u64; 4], answer: &mut [u64; 1]) -> u64;
    /// Answer: group, bound.
    fn bound(&self, services: usize, cabinets: usize, answer: &mut [u64; 2]) -> u64;
}
