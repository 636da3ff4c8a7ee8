//! The bound on the splits weighed.

use crate::limits::{CABINETS, SERVICES};

/// The powers of 3 for 0 to 10 services.
const POWERS: [u64; SERVICES + 1] = [1, 3, 9, 27, 81, 243, 729, 2_187, 6_561, 19_683, 59_049];

/// (s − 1) × 3^r, or refusal 2 outside the limits.
pub fn bound(services: usize, cabinets: usize) -> Result<u64, u64> {
    if services > SERVICES || !(1..=CABINETS).contains(&cabinets) {
        return Err(2);
    }
    Ok((cabinets as u64 - 1) * POWERS[services])
}
