//! The measured road M, and the tables that it leaves.

/// Road M, word by word.
pub const M: [u16; 34] = [
    2, 3, 1, 16, 20, 62, 68, 0, 2, 2, 65535, 4, 5, 0, 0, 0, 0, 0, 3, 1, 6, 2, 6, 1, 0, 3, 2, 2, 1,
    6, 1, 0, 1, 3,
];

/// The bytes of words.
pub fn bytes(words: &[u16]) -> Vec<u8> {
    words.iter().flat_map(|w| w.to_le_bytes()).collect()
}

/// The bytes of M.
pub fn m() -> Vec<u8> {
    bytes(&M)
}

/// M with another root capacity and another price of cabinet 2.
pub fn m_edited(root: u16, price: u16) -> Vec<u8> {
    let mut words = M;
    words[11] = root;
    words[26] = price;
    bytes(&words)
}

/// A figure that is no cost.
const NONE: u64 = 1_000_000_000_000_001;

/// The tables that M leaves, by hand: alone, service 0 is cheapest on 1 for 2 and the stream of 3 up
/// at 2, and service 1 there for 2 and the stream down at 1.
pub const COSTS: [u64; 12] = [0, 8, 5, 15, 0, 2, 2, NONE, 0, 4, 4, NONE];
pub const CHOICES: [u16; 12] = [0, 0, 0, 0, 9, 0, 0, 1, 9, 1, 2, 3];
