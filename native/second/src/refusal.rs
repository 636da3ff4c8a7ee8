//! Refusal numbers and the groups that say who can cause them.

/// No refusal.
pub const NONE: u64 = 0;
/// Whoever wrote the sheet: 1 to 9, 18 and 19.
pub const SHEET_WRITER: u64 = 1;
/// Whoever lends memory, or names a tariff or a span: 10, 11, 21, 22 and 24.
pub const LENDER: u64 = 2;
/// The road: 12.
pub const ROAD: u64 = 3;
/// Whoever wrote the plan, or names the cabinet and lends the tables of an edit: 13 to 16, 20 and
/// 23.
pub const PLAN_WRITER: u64 = 4;

/// The group of a refusal number; 0 for none.
pub fn group(number: u64) -> u64 {
    match number {
        1..=9 | 18 | 19 => SHEET_WRITER,
        10 | 11 | 21 | 22 | 24 => LENDER,
        12 => ROAD,
        13..=16 | 20 | 23 => PLAN_WRITER,
        _ => NONE,
    }
}
