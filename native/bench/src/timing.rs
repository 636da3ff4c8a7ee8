//! Runs both planners by turns on one sheet.

use std::hint::black_box;
use std::time::Instant;

/// Median seconds of each planner, and the count that both gave.
pub struct Times {
    pub proved: f64,
    pub plain: f64,
    pub count: u64,
}

/// Places and entries that suffice for any sheet.
pub const OUTPUT: usize = 10;
pub const ENTRIES: usize = 200 << 10;

/// Times both, one after the other in each run. Each call clears the tables itself.
pub fn both(sheet: &[u8], runs: usize) -> Times {
    let mut output = vec![0; OUTPUT];
    let mut costs = vec![0; ENTRIES];
    let mut choices = vec![0; ENTRIES];
    let (mut proved, mut plain) = (vec![], vec![]);
    let mut count = 0;
    for _ in 0..runs.max(1) {
        let mut answer = [0; 3];
        let start = Instant::now();
        let refusal = gazrieksne::calls::plan(
            black_box(sheet),
            &mut output,
            &mut costs,
            &mut choices,
            &mut answer,
        );
        proved.push(start.elapsed().as_secs_f64());
        let start = Instant::now();
        let right = plain::plan(black_box(sheet), &mut output, &mut costs, &mut choices);
        plain.push(start.elapsed().as_secs_f64());
        let right = (right.refusal, [right.group, right.cost, right.count]);
        assert_eq!((refusal, answer), right, "the planners differ");
        count = answer[2];
    }
    Times {
        proved: median(proved),
        plain: median(plain),
        count,
    }
}

pub fn median(mut seconds: Vec<f64>) -> f64 {
    seconds.sort_by(f64::total_cmp);
    seconds[seconds.len() / 2]
}
