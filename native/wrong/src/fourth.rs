//! The barred block as the reader takes it, and its faults.

use crate::reader::Block;
use crate::{Fault, Faulty};
use second::{Pair, Sheet};

impl Faulty {
    /// The offset of the barred block; 0 for none.
    pub fn fourth(&self, bytes: &[u8]) -> usize {
        let eighth = usize::from(self.word(bytes, 14));
        match self.0 {
            Some(Fault::ReadEighthWord) => 0,
            Some(Fault::ReadEighthLowByte) => eighth % 256,
            _ => eighth,
        }
    }

    /// The refusal of the barred block and of its pairs, or 0.
    pub fn wrong_fourth(&self, bytes: &[u8], others: &[Block; 3], sheet: &Sheet) -> u64 {
        let offset = self.fourth(bytes);
        if offset == 0 || self.cut_off(offset, bytes.len()) {
            return 0;
        }
        let count = usize::from(self.word(bytes, offset));
        let mut others = others.iter().enumerate();
        let shares = others.any(|(block, &b)| self.fourth_shares((offset, count), block, b));
        let outside =
            self.fourth_outside(offset, count, bytes.len()) || self.too_many(count, &sheet.barred);
        let unnamed = self.unnamed(sheet);
        match (outside, shares) {
            (false, _) if unnamed && self.has(Fault::PairsBeforeSharing) => 19,
            (true, _) if self.has(Fault::FourthOutsideIs4) => 4,
            (false, true) if self.has(Fault::FourthSharesIs5) => 5,
            (false, false) if unnamed => 19,
            (false, false) => 0,
            _ => 18,
        }
    }

    /// A block that is passed over since not even its count word fits.
    fn cut_off(&self, offset: usize, length: usize) -> bool {
        self.has(Fault::FourthCutOff) && offset >= 16 && offset + 2 > length
    }

    /// The count is too high, or too low.
    fn too_many(&self, count: usize, pairs: &[Pair]) -> bool {
        let (count, most) = match self.0 {
            Some(Fault::FourthPairs1999) => (count, 1_999),
            Some(Fault::FourthPairs2001) => (count, 2_001),
            Some(Fault::FourthRepeatsFree) => (once(pairs).len(), 2_000),
            _ => (count, 2_000),
        };
        count > most || count == 0 && self.has(Fault::FourthNeverEmpty)
    }

    /// The block starts in the header or ends past the length.
    fn fourth_outside(&self, offset: usize, count: usize, length: usize) -> bool {
        let end = offset + 2 + 4 * count;
        let start = match self.0 {
            Some(Fault::FourthInHeader) => 0,
            Some(Fault::FourthNotAt16) => 17,
            _ => 16,
        };
        let past = match self.0 {
            Some(Fault::FourthWraps) => end % 65_536 > length,
            Some(Fault::FourthOneBytePast) => end > length + 1,
            Some(Fault::FourthWithoutCount) => end - 2 > length,
            Some(Fault::FourthNotAtEnd) => end >= length,
            _ => end > length,
        };
        let odd = offset % 2 == 1 && self.has(Fault::FourthOdd);
        offset < start || past || odd
    }

    /// The block shares a byte with this one of the others.
    fn fourth_shares(&self, (a, count): (usize, usize), block: usize, (b, n): Block) -> bool {
        let size = match self.0 {
            Some(Fault::FourthEmptyOwnsNothing) if count == 0 => 0,
            Some(Fault::FourthCountOwned) => 2,
            _ => 2 + 4 * count,
        };
        let passed_over = [
            Fault::FourthOverServices,
            Fault::FourthOverCabinets,
            Fault::FourthOverStreams,
        ];
        if self.has(passed_over[block]) {
            return false;
        }
        let empty = size == 0 || n == 0;
        match self.0 {
            Some(Fault::FourthTouches) if !empty => a <= b + n && b <= a + size,
            Some(Fault::FourthSharesOneByte) if !empty => a + 1 < b + n && b + 1 < a + size,
            Some(Fault::FourthAroundEmpty) => a < b + n && b < a + size,
            _ => !empty && a < b + n && b < a + size,
        }
    }

    /// The pairs as they stand, as far as there are bytes.
    pub fn gather_pairs(&self, bytes: &[u8]) -> Vec<Pair> {
        let offset = self.fourth(bytes);
        if offset == 0 || self.cut_off(offset, bytes.len()) {
            return vec![];
        }
        let count = usize::from(self.word(bytes, offset));
        let word = |k: usize, i: usize| self.word(bytes, offset + 2 + 4 * k + 2 * i);
        let pair = |k| Pair::from_words(std::array::from_fn(|i| word(k, i)));
        let room = bytes.len().saturating_sub(offset + 2).div_ceil(4);
        (0..count.min(room)).map(pair).collect()
    }

    /// A pair names no service or no cabinet.
    fn unnamed(&self, sheet: &Sheet) -> bool {
        let [r, s] = [sheet.services.len(), sheet.cabinets.len()];
        let (services, cabinets) = match self.0 {
            Some(Fault::PairServiceS) => (s, s),
            Some(Fault::PairCabinetR) => (r, r),
            Some(Fault::PairServiceNext) => (r + 1, s),
            Some(Fault::PairCabinetNext) => (r, s + 1),
            Some(Fault::PairServiceOnly) => (r, usize::MAX),
            _ => (r, s),
        };
        let wrong =
            |p: &Pair| usize::from(p.service) >= services || usize::from(p.cabinet) >= cabinets;
        let pairs = &sheet.barred;
        let tested = match self.0 {
            Some(Fault::PairLast) => &pairs[..pairs.len().saturating_sub(1)],
            Some(Fault::PairFirst) => &pairs[..pairs.len().min(1)],
            _ => &pairs[..],
        };
        let repeated = self.has(Fault::PairsNotTwice) && once(pairs) != *pairs;
        tested.iter().any(wrong) || repeated
    }
}

/// The pairs without those that stood there before.
pub fn once(pairs: &[Pair]) -> Vec<Pair> {
    let mut kept: Vec<Pair> = vec![];
    for pair in pairs {
        if !kept.contains(pair) {
            kept.push(*pair);
        }
    }
    kept
}
