//! The bytes of the tidy copy and their faults.

use crate::fourth::once;
use crate::loads::one_a_pair;
use crate::{Fault, Faulty};
use second::{Cabinet, Pair, Sheet, Stream};

impl Faulty {
    /// The copy of a sheet with these records.
    pub fn copy(&self, bytes: &[u8], sheet: &Sheet) -> Vec<u8> {
        let streams = self.streams_copied(&sheet.streams);
        let blocks: [Vec<u16>; 4] = [
            sheet.services.clone(),
            sheet.cabinets.iter().flat_map(Cabinet::words).collect(),
            streams.iter().flat_map(Stream::words).collect(),
            self.fourth_copied(bytes, sheet),
        ];
        let mut copy = vec![0; 16];
        let mut offsets = [0; 4];
        for (k, block) in blocks.iter().enumerate() {
            copy.resize(copy.len() + self.gap_before(k, copy.len()), 0);
            offsets[k] = copy.len();
            copy.extend(self.bytes_of(block));
        }
        let counts = [sheet.services.len(), sheet.cabinets.len(), streams.len()];
        let header = self.header(bytes, counts, offsets, copy.len());
        copy.splice(..16, self.bytes_of(&header));
        copy
    }

    /// Words as bytes.
    fn bytes_of(&self, words: &[u16]) -> Vec<u8> {
        let bytes = |word: &u16| match self.has(Fault::TidyHighByteFirst) {
            true => word.to_be_bytes(),
            false => word.to_le_bytes(),
        };
        words.iter().flat_map(bytes).collect()
    }

    /// Unused bytes before a block.
    fn gap_before(&self, block: usize, at: usize) -> usize {
        match self.0 {
            Some(Fault::TidyGap) if block == 2 => 2,
            Some(Fault::TidyAligned) => at.next_multiple_of(4) - at,
            _ => 0,
        }
    }

    /// The eight words of the header.
    fn header(
        &self,
        bytes: &[u8],
        counts: [usize; 3],
        offsets: [usize; 4],
        length: usize,
    ) -> [u16; 8] {
        let place = |block: usize| match self.0 {
            Some(Fault::TidyEmptyAtZero) if counts[block] == 0 => 0,
            Some(Fault::TidyEmptyAtEnd) if counts[block] == 0 => length,
            Some(Fault::TidyOldOffsets) => usize::from(self.word(bytes, 6 + 2 * block)),
            _ => offsets[block],
        };
        let words = [
            counts[0],
            counts[1],
            counts[2],
            place(0),
            place(1),
            place(2),
            match self.has(Fault::TidyLengthWithoutPairs) {
                true => offsets[3],
                false => length,
            },
            match offsets[3] < length || self.has(Fault::TidyEighthWord) {
                true => offsets[3],
                false => 0,
            },
        ];
        words.map(|word| word as u16)
    }

    /// The streams as they are written.
    fn streams_copied(&self, streams: &[Stream]) -> Vec<Stream> {
        let mut streams = match self.has(Fault::TidyStreamsOnce) {
            true => one_a_pair(streams),
            false => streams.to_vec(),
        };
        if self.has(Fault::TidyStreamsSorted) {
            streams.sort_by_key(Stream::words);
        }
        streams
    }

    /// The barred block: a count and pairs, or nothing.
    fn fourth_copied(&self, bytes: &[u8], sheet: &Sheet) -> Vec<u16> {
        let eighth = self.fourth(bytes);
        let [r, s, q] = [
            sheet.services.len(),
            sheet.cabinets.len(),
            sheet.streams.len(),
        ];
        let in_place = eighth == 16 + 2 * r + 14 * s + 6 * q;
        let pairs = match in_place && self.has(Fault::TidyPairsInPlace) {
            true => sheet.barred.iter().map(Pair::words).collect(),
            false => self.pairs_copied(&sheet.barred),
        };
        let count = match self.has(Fault::TidyCountIn8Bits) {
            true => pairs.len() % 256,
            false => pairs.len(),
        };
        let kept = self.has(Fault::TidyEmptyPairs) || eighth != 0 && self.has(Fault::TidyNoneKept);
        match pairs.is_empty() && !kept {
            true => vec![],
            false => [&[count as u16][..], &pairs.concat()].concat(),
        }
    }

    /// The pairs as they are written.
    fn pairs_copied(&self, pairs: &[Pair]) -> Vec<[u16; 2]> {
        let words = |pairs: &[Pair]| -> Vec<[u16; 2]> { pairs.iter().map(Pair::words).collect() };
        let mut each = words(&once(pairs));
        each.sort();
        match self.0 {
            Some(Fault::TidyRepeatsKept) => {
                each = words(pairs);
                each.sort();
            }
            Some(Fault::TidyNeighboursOnly) => {
                each = words(pairs);
                each.dedup();
                each.sort();
            }
            Some(Fault::TidyPairsAsTheyStand) => each = words(&once(pairs)),
            Some(Fault::TidyCabinetFirst) => {
                each.sort_by_key(|&[service, cabinet]| [cabinet, service])
            }
            Some(Fault::TidyPairsFalling) => each.reverse(),
            Some(Fault::TidyPairSwapped) => each.iter_mut().for_each(|pair| pair.reverse()),
            Some(Fault::TidyLastPair) => each.truncate(each.len().saturating_sub(1)),
            _ => {}
        }
        each
    }
}
