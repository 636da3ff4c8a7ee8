//! The faulty implementation as the comparison calls it.

use crate::Fault;
use crate::fourth::once;
use crate::keep::Lent;
use crate::span::Site;
use differ::{Call, Spanned, Subject};
use second::{Cabinet, Pair, Sheet, group};

/// An implementation with this fault, or with none.
#[derive(Clone)]
pub struct Faulty(pub Option<Fault>);

impl Faulty {
    pub fn has(&self, fault: Fault) -> bool {
        self.0 == Some(fault)
    }

    /// The record, if there, into its places.
    fn give<const N: usize>(&self, found: Option<[u16; N]>, record: &mut [u64; N]) -> u64 {
        match found {
            Some(words) => *record = words.map(u64::from),
            None if self.has(Fault::RecordCleared) => *record = [0; N],
            None => {}
        }
        u64::from(found.is_some())
    }

    /// What the reader tells of an accepted sheet.
    fn counts(&self, sheet: &Sheet) -> [u64; 5] {
        let pairs = match self.has(Fault::PairsOnce) {
            true => once(&sheet.barred).len(),
            false => sheet.barred.len(),
        };
        let [r, s, q] = [
            sheet.services.len(),
            sheet.cabinets.len(),
            sheet.streams.len(),
        ];
        [0, r as u64, s as u64, q as u64, pairs as u64]
    }

    /// What it tells of a refused one.
    fn counts_refused(&self, bytes: &[u8], refusal: u64) -> [u64; 5] {
        let word = |at| u64::from(self.word(bytes, at));
        match (refusal, self.0) {
            (3.., Some(Fault::ReadCountsGiven)) => [group(refusal), word(0), word(2), word(4), 0],
            (19, Some(Fault::ReadPairsGiven)) => [1, 0, 0, 0, word(self.fourth(bytes))],
            (18 | 19, Some(Fault::FourthGroup)) => [2, 0, 0, 0, 0],
            _ => [group(refusal), 0, 0, 0, 0],
        }
    }
}

/// What is lent to a call without a span.
fn whole<'a>(
    output: &'a mut [u16],
    costs: &'a mut [u64],
    choices: &'a mut [u16],
    call: Call,
) -> (Lent<'a>, Site) {
    let lent = Lent {
        output,
        costs,
        choices,
    };
    (lent, Site { call, span: None })
}

/// What is lent to a call with one.
fn in_span<'a>(output: &'a mut [u16], tables: Spanned<'a>, call: Call) -> (Lent<'a>, Site) {
    let Spanned {
        costs,
        choices,
        span,
    } = tables;
    let (lent, site) = whole(output, costs, choices, call);
    let span = Some(span);
    (lent, Site { span, ..site })
}

impl Subject for Faulty {
    fn read(&self, sheet: &[u8], counts: &mut [u64; 5]) -> u64 {
        let (refusal, values) = match self.records(sheet) {
            Ok(records) => (0, self.counts(&records)),
            Err(refusal) => (refusal, self.counts_refused(sheet, refusal)),
        };
        let written = match self.0 {
            Some(Fault::ReadCountsKept) if refusal != 0 => 0,
            Some(Fault::ReadPairsKept) if values[4] == 0 => 4,
            _ => 5,
        };
        counts[..written].copy_from_slice(&values[..written]);
        refusal
    }

    fn service(&self, sheet: &[u8], number: usize, record: &mut [u64; 1]) -> u64 {
        let found = self.record(sheet, number, |s| s.services.iter().map(|&d| [d]).collect());
        self.give(found, record)
    }

    fn cabinet(&self, sheet: &[u8], number: usize, record: &mut [u64; 7]) -> u64 {
        let found = self.record(sheet, number, |s| {
            s.cabinets.iter().map(Cabinet::words).collect()
        });
        let found = found.map(|mut words| {
            if self.has(Fault::RecordUpDown) {
                words[3..].rotate_left(2);
            }
            words
        });
        self.give(found, record)
    }

    fn stream(&self, sheet: &[u8], number: usize, record: &mut [u64; 3]) -> u64 {
        let found = self.record(sheet, number, |s| {
            s.streams.iter().map(|t| t.words()).collect()
        });
        self.give(found, record)
    }

    fn barred(&self, sheet: &[u8], number: usize, record: &mut [u64; 2]) -> u64 {
        let found = self.record(sheet, number, |s| {
            let mut pairs: Vec<[u16; 2]> = s.barred.iter().map(Pair::words).collect();
            match self.0 {
                Some(Fault::RecordPairsSorted) => pairs.sort(),
                Some(Fault::RecordPairSwapped) => pairs.iter_mut().for_each(|p| p.reverse()),
                Some(Fault::RecordPairPastLast) => pairs.push([0, 0]),
                _ => {}
            }
            pairs
        });
        if found.is_none() && self.has(Fault::RecordPairCleared) {
            *record = [0, 0];
        }
        self.give(found, record)
    }

    fn check(&self, sheet: &[u8], plan: &[u16], answer: &mut [u64; 2]) -> u64 {
        self.check_answer(sheet, plan, answer)
    }

    fn plan(
        &self,
        sheet: &[u8],
        output: &mut [u16],
        costs: &mut [u64],
        choices: &mut [u16],
        answer: &mut [u64; 3],
    ) -> u64 {
        let (lent, site) = whole(output, costs, choices, Call::Plan);
        self.call(sheet, 0, lent, site, answer)
    }

    fn keep(
        &self,
        sheet: &[u8],
        output: &mut [u16],
        costs: &mut [u64],
        choices: &mut [u16],
        answer: &mut [u64; 3],
    ) -> u64 {
        let (lent, site) = whole(output, costs, choices, Call::Keep);
        self.call(sheet, 0, lent, site, answer)
    }

    fn edit(
        &self,
        sheet: &[u8],
        cabinet: usize,
        output: &mut [u16],
        costs: &mut [u64],
        choices: &mut [u16],
        answer: &mut [u64; 3],
    ) -> u64 {
        let (lent, site) = whole(output, costs, choices, Call::Edit);
        self.call(sheet, cabinet, lent, site, answer)
    }

    fn plan_span(
        &self,
        sheet: &[u8],
        output: &mut [u16],
        tables: Spanned,
        answer: &mut [u64; 3],
    ) -> u64 {
        let (lent, site) = in_span(output, tables, Call::Plan);
        self.call(sheet, 0, lent, site, answer)
    }

    fn keep_span(
        &self,
        sheet: &[u8],
        output: &mut [u16],
        tables: Spanned,
        answer: &mut [u64; 3],
    ) -> u64 {
        let (lent, site) = in_span(output, tables, Call::Keep);
        self.call(sheet, 0, lent, site, answer)
    }

    fn edit_span(
        &self,
        sheet: &[u8],
        cabinet: usize,
        output: &mut [u16],
        tables: Spanned,
        answer: &mut [u64; 3],
    ) -> u64 {
        let (lent, site) = in_span(output, tables, Call::Edit);
        self.call(sheet, cabinet, lent, site, answer)
    }

    fn bill(
        &self,
        sheet: &[u8],
        plan: &[u16],
        tariff: [u64; 3],
        lines: &mut [u64],
        answer: &mut [u64; 4],
    ) -> u64 {
        let (refusal, values) = self.bill_answer(sheet, plan, tariff, lines);
        let written = match self.0 {
            Some(Fault::BillAnswerKept) if refusal != 0 => 0,
            Some(Fault::BillFiguresKept) if values[1] == 0 => 1,
            _ => 4,
        };
        answer[..written].copy_from_slice(&values[..written]);
        refusal
    }

    fn tidy(&self, sheet: &[u8], output: &mut [u8], answer: &mut [u64; 2]) -> u64 {
        let (refusal, values) = self.tidy_answer(sheet, output);
        if refusal == 0 || !self.has(Fault::TidyAnswerKept) {
            *answer = values;
        }
        refusal
    }

    fn weigh(&self, figures: [u64; 4], answer: &mut [u64; 1]) -> u64 {
        let (figure, flag) = self.weighed(figures);
        *answer = [figure];
        flag
    }

    fn bound(&self, services: usize, cabinets: usize, answer: &mut [u64; 2]) -> u64 {
        let (refusal, values) = self.bound_answer(services, cabinets);
        *answer = values;
        refusal
    }
}
