//! What a stream takes of a line.

/// What the framing of a stream takes of every direction of a link that the stream crosses, if its
/// demand is above 0.
pub const FRAMING: u64 = 2;

/// What a stream of this demand takes of every direction of a link that it crosses.
pub fn taken(demand: u16) -> u64 {
    match demand {
        0 => 0,
        _ => u64::from(demand) + FRAMING,
    }
}
