//! Tax to the nearest cent.

use super::{Billed, road};

pub fn all() -> Vec<Billed> {
    let mut all = of_one_cent();
    all.extend(at_one_thousandth());
    all.extend(halves());
    all.extend(large());
    all.extend(several_lines());
    all
}

/// A service of this demand alone, with this slot price and tax rate, which make this net.
fn alone(name: &'static str, demand: u16, [slot, rate]: [u64; 2], figures: [u64; 3]) -> Billed {
    let sheet = road(&[demand], &[], &[]);
    Billed::made(name, &sheet, &[0], [0, slot, rate], &figures[..1], figures)
}

/// The rate is the thousandths that are left.
fn of_one_cent() -> Vec<Billed> {
    let bill = |name, rate, figures| alone(name, 1, [1, rate], figures);
    vec![
        bill("1 cent at 0", 0, [1, 0, 1]),
        bill("1 cent at 1", 1, [1, 0, 1]),
        bill("1 cent at 499", 499, [1, 0, 1]),
        bill("1 cent at 500", 500, [1, 1, 2]),
        bill("1 cent at 501", 501, [1, 1, 2]),
        bill("1 cent at 999", 999, [1, 1, 2]),
        bill("1 cent at 1,000", 1_000, [1, 1, 2]),
    ]
}

/// The net is the thousandths of a cent that the tax comes to.
fn at_one_thousandth() -> Vec<Billed> {
    let bill = |name, net, figures| alone(name, net, [1, 1], figures);
    vec![
        bill("499 cents at 1", 499, [499, 0, 499]),
        bill("500 cents at 1", 500, [500, 1, 501]),
        bill("501 cents at 1", 501, [501, 1, 502]),
        bill("1,000 cents at 1", 1_000, [1_000, 1, 1_001]),
        bill("1,499 cents at 1", 1_499, [1_499, 1, 1_500]),
        bill("1,500 cents at 1", 1_500, [1_500, 2, 1_502]),
        bill("1,501 cents at 1", 1_501, [1_501, 2, 1_503]),
        bill("2,500 cents at 1", 2_500, [2_500, 3, 2_503]),
    ]
}

/// Half of an odd net goes upward, to the even cent or not.
fn halves() -> Vec<Billed> {
    let bill = |name, net, figures| alone(name, net, [1, 500], figures);
    vec![
        bill("half of 0", 0, [0, 0, 0]),
        bill("half of 2", 2, [2, 1, 3]),
        bill("half of 3", 3, [3, 2, 5]),
        bill("half of 5", 5, [5, 3, 8]),
    ]
}

/// 9,999 × 9,999 is 99,980,001, and 999 thousandths of it leave 999 of a cent. 7 × 9,287 is
/// 65,009, and 11 thousandths of it are 715.099.
fn large() -> Vec<Billed> {
    let square = |name, rate, tax, total| {
        let figures = [99_980_001, tax, total];
        alone(name, 9_999, [9_999, rate], figures)
    };
    vec![
        square("9,999 squared at 0", 0, 0, 99_980_001),
        square("9,999 squared at 1", 1, 99_980, 100_079_981),
        square("9,999 squared at 500", 500, 49_990_001, 149_970_002),
        square("9,999 squared at 999", 999, 99_880_021, 199_860_022),
        square("9,999 squared at 1,000", 1_000, 99_980_001, 199_960_002),
        alone("65,009 cents", 9_287, [7, 11], [65_009, 715, 65_724]),
    ]
}

/// Tax is taken of the net, not of each line: two lines of 1 cent at 500 are 1 cent of tax, three
/// at 400 are 1.2. With a stream of 1 down a link there is one block more.
fn several_lines() -> Vec<Billed> {
    let bill = |name, services: &[u16], rate, figures: [u64; 3]| {
        let sheet = road(services, &[], &[]);
        let (plan, lines) = (vec![0; services.len()], vec![1; services.len()]);
        Billed::made(name, &sheet, &plan, [0, 1, rate], &lines, figures)
    };
    let linked = |name, rate, figures| {
        let sheet = road(&[1, 1], &[0], &[[0, 1, 1]]);
        let lines = [0, 1, 1, 1];
        Billed::made(name, &sheet, &[0, 1], [1, 1, rate], &lines, figures)
    };
    vec![
        bill("two lines at 500", &[1; 2], 500, [2, 1, 3]),
        bill("three lines at 400", &[1; 3], 400, [3, 1, 4]),
        bill("ten lines at 50", &[1; 10], 50, [10, 1, 11]),
        // 501, 2,499 and 1,500 thousandths.
        linked("three lines at 167", 167, [3, 1, 4]),
        linked("three lines at 833", 833, [3, 2, 5]),
        linked("a link's line at 500", 500, [3, 2, 5]),
    ]
}
