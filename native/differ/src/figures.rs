//! Compares the calls that take no sheet: the weighing of a split and the bound.

use crate::guarded::{Guarded, same};
use crate::{Subject, Tally};
use second::group;
use second::random::Random;
use second::weigh::LARGEST_COST;

/// A figure of any size, often near the largest cost.
fn figure(random: &mut Random) -> u64 {
    let (small, any) = (random.below(10) as u64, random.next());
    let cost = any % LARGEST_COST;
    let near = LARGEST_COST - 2 + random.below(5) as u64;
    let sum = 3 * LARGEST_COST;
    random.pick(&[small, small, cost, near, sum, u64::MAX, u64::MAX - 1, any])
}

/// One split with any four figures.
pub fn weigh(subject: &dyn Subject, random: &mut Random, tally: &mut Tally) -> Result<(), String> {
    let figures: [u64; 4] = std::array::from_fn(|_| figure(random));
    let [best, placed, rest, link] = figures;
    let (right, flag) = second::weigh(best, placed, rest, link);
    let call = format!("weigh {figures:?}");
    let mut answer = Guarded::dirty(random, 1);
    let answered = subject.weigh(figures, answer.array());
    same(&call, answered, flag)?;
    answer.expect(&call, &[right])?;
    tally.answer("weigh", flag);
    Ok(())
}

/// Numbers past every limit; in 16 or 32 bits most of them would be within one.
const WIDE: [usize; 7] = [
    65_535,
    65_536,
    65_546,
    65_736,
    1 << 32,
    (1 << 32) + 10,
    usize::MAX,
];

/// The bound for numbers in and around the limits.
pub fn bound(subject: &dyn Subject, random: &mut Random, tally: &mut Tally) -> Result<(), String> {
    let wide = random.pick(&WIDE);
    let [r, s] = [random.below(13), random.below(203)];
    let services = random.pick(&[r, r, r, 10, 11, wide]);
    let cabinets = random.pick(&[s, s, s, 0, 1, 200, 201, wide]);
    bound_of(subject, services, cabinets, random, tally)
}

/// Compares the bound for all numbers within the limits and around them: of services up to where
/// 3^r is past 64 bits and past 128, of cabinets up to past 8 bits, and wide ones of both.
pub fn compare_bounds(
    subject: &dyn Subject,
    random: &mut Random,
    tally: &mut Tally,
) -> Result<(), String> {
    for services in (0..=90).chain(WIDE) {
        for cabinets in (0..=300).chain(WIDE) {
            bound_of(subject, services, cabinets, random, tally)?;
        }
    }
    Ok(())
}

fn bound_of(
    subject: &dyn Subject,
    services: usize,
    cabinets: usize,
    random: &mut Random,
    tally: &mut Tally,
) -> Result<(), String> {
    let (right, bound) = match second::bound(services, cabinets) {
        Ok(bound) => (0, bound),
        Err(refusal) => (refusal, 0),
    };
    let call = format!("bound {services} {cabinets}");
    let mut answer = Guarded::dirty(random, 2);
    let refusal = subject.bound(services, cabinets, answer.array());
    same(&call, refusal, right)?;
    answer.expect(&call, &[group(right), bound])?;
    tally.answer("bound", right);
    Ok(())
}
