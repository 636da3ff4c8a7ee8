//! Runs the check and the bill of one plan by turns.

use gazrieksne::calls::{bill, check};
use std::hint::black_box;
use std::time::Instant;

/// The least seconds of the check and of the bill.
pub struct Times {
    pub check: f64,
    pub bill: f64,
}

/// How many times each is called.
pub const CALLS: usize = 3000;

/// Times both on a valid plan, one after the other each time.
pub fn both(sheet: &[u8], plan: &[u16]) -> Times {
    let mut lines = [0; gazrieksne::MOST_LINES];
    let mut least = Times {
        check: f64::INFINITY,
        bill: f64::INFINITY,
    };
    let [block_price, slot_price, tax_rate] = [25, 40, 190];
    for _ in 0..CALLS {
        let mut answer = [0; 2];
        let start = Instant::now();
        let refusal = check(black_box(sheet), black_box(plan), &mut answer);
        least.check = least.check.min(start.elapsed().as_secs_f64());
        assert_eq!(refusal, 0, "the plan is valid");
        let mut answer = [0; 4];
        let start = Instant::now();
        let refusal = bill(
            black_box(sheet),
            black_box(plan),
            block_price,
            slot_price,
            tax_rate,
            &mut lines,
            &mut answer,
        );
        least.bill = least.bill.min(start.elapsed().as_secs_f64());
        assert_eq!(refusal, 0, "the plan has a bill");
    }
    least
}
