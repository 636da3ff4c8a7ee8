//! The reader and its faults.

use crate::{Fault, Faulty};
use second::{Cabinet, Sheet, Stream};

/// A block: offset and size.
pub type Block = (usize, usize);

impl Faulty {
    /// The word at a byte offset; 0 past the end, which only a fault can reach.
    pub fn word(&self, bytes: &[u8], at: usize) -> u16 {
        let byte = |i: usize| bytes.get(i).copied().unwrap_or(0);
        let pair = [byte(at), byte(at + 1)];
        match self.has(Fault::ReadHighByteFirst) {
            true => u16::from_be_bytes(pair),
            false => u16::from_le_bytes(pair),
        }
    }

    /// The records, or the reader's refusal.
    pub fn records(&self, bytes: &[u8]) -> Result<Sheet, u64> {
        let header = if self.has(Fault::ReadHeaderOf17) {
            17
        } else {
            16
        };
        if bytes.len() < header {
            return Err(1);
        }
        let wrong_length = self.wrong_length(bytes);
        if self.has(Fault::ReadLengthFirst) && wrong_length {
            return Err(3);
        }
        if self.outside_limits(bytes) {
            return Err(2);
        }
        if wrong_length {
            return Err(3);
        }
        let field = |i: usize| usize::from(self.word(bytes, 2 * i));
        let blocks = [
            (field(3), 2 * field(0)),
            (field(4), 14 * field(1)),
            (field(5), 6 * field(2)),
        ];
        if blocks.iter().any(|&b| self.outside(b, bytes.len())) {
            return Err(4);
        }
        if self.blocks_share(&blocks) {
            return Err(5);
        }
        let sheet = self.gather(bytes);
        let fourth = self.wrong_fourth(bytes, &blocks, &sheet);
        match self.earlier(self.wrong_record(&sheet), fourth) {
            0 => Ok(sheet),
            refusal => Err(refusal),
        }
    }

    /// The refusal of the records, or else that of the barred block.
    fn earlier(&self, records: u64, fourth: u64) -> u64 {
        match (records, fourth) {
            (9, 18) if self.has(Fault::FourthBefore9) => 18,
            (9, 19) if self.has(Fault::PairsBefore9) => 19,
            (0, _) => fourth,
            _ => records,
        }
    }

    fn outside_limits(&self, bytes: &[u8]) -> bool {
        let field = |i: usize| self.word(bytes, 2 * i);
        let more = |fault| u16::from(self.has(fault));
        field(0) > 10 + more(Fault::ReadElevenServices)
            || field(1) < 1 - more(Fault::ReadNoCabinets)
            || field(1) > 200 + more(Fault::ReadCabinets201)
            || field(2) > 100 + more(Fault::ReadStreams101)
            || field(7) != 0 && self.has(Fault::ReadEighthIs2)
    }

    fn wrong_length(&self, bytes: &[u8]) -> bool {
        let said = usize::from(self.word(bytes, 12));
        match self.0 {
            Some(Fault::ReadLengthIn16Bits) => said != bytes.len() % 65_536,
            Some(Fault::ReadTrailingBytes) => said > bytes.len(),
            _ => said != bytes.len(),
        }
    }

    fn outside(&self, (offset, size): Block, length: usize) -> bool {
        let end = offset + size;
        let start = 16 + usize::from(self.has(Fault::ReadOffset16));
        match self.0 {
            Some(Fault::ReadHeaderShared) => end > length,
            Some(Fault::ReadOffsetWraps) => offset < 16 || end % 65_536 > length,
            Some(Fault::ReadEmptyAnywhere) if size == 0 => false,
            Some(Fault::ReadEmptyAtLength) if size == 0 => offset < 16 || end >= length,
            Some(Fault::ReadOddOffset) if offset % 2 == 1 => true,
            _ => offset < start || end > length,
        }
    }

    fn blocks_share(&self, blocks: &[Block; 3]) -> bool {
        if self.has(Fault::ReadGaps) && gap(blocks) {
            return true;
        }
        let pairs = [(0, 1), (1, 2), (0, 2)];
        let looked_at = if self.has(Fault::ReadForgottenPair) {
            2
        } else {
            3
        };
        let mut pairs = pairs.into_iter().take(looked_at);
        pairs.any(|(a, b)| self.share(blocks[a], blocks[b]))
    }

    fn share(&self, (a, m): Block, (b, n): Block) -> bool {
        let empty = m == 0 || n == 0;
        match self.0 {
            Some(Fault::ReadTouching) if !empty => a <= b + n && b <= a + m,
            Some(Fault::ReadShareLastByte) if !empty => a + 1 < b + n && b + 1 < a + m,
            Some(Fault::ReadEmptyInside) => a < b + n && b < a + m,
            _ => !empty && a < b + n && b < a + m,
        }
    }

    pub fn gather(&self, bytes: &[u8]) -> Sheet {
        let field = |i: usize| usize::from(self.word(bytes, 2 * i));
        let at = |block: usize, size: usize, number: usize, i: usize| {
            self.word(bytes, field(3 + block) + size * number + 2 * i)
        };
        let cabinet = |c| Cabinet::from_words(std::array::from_fn(|i| at(1, 14, c, i)));
        let stream = |k| Stream::from_words(std::array::from_fn(|i| at(2, 6, k, i)));
        Sheet {
            services: (0..field(0)).map(|i| at(0, 2, i, 0)).collect(),
            cabinets: (0..field(1)).map(cabinet).collect(),
            streams: (0..field(2)).map(stream).collect(),
            barred: self.gather_pairs(bytes),
        }
    }

    /// The lowest refusal over all records but the barred pairs, or 0.
    fn wrong_record(&self, sheet: &Sheet) -> u64 {
        let services = sheet.services.iter().map(|&d| self.amount(d));
        let cabinets = sheet.cabinets.iter().enumerate();
        let cabinets = cabinets.map(|(c, cabinet)| self.wrong_cabinet(c, cabinet));
        let r = sheet.services.len();
        let streams = sheet.streams.iter().map(|t| self.wrong_stream(r, t));
        let all = services.chain(cabinets).chain(streams);
        let mut refusals = all.filter(|&n| n != 0);
        match self.0 {
            Some(Fault::ReadFirstRecord) => refusals.next(),
            Some(Fault::ReadParentBefore6) => refusals.min_by_key(|&n| if n == 7 { 5 } else { n }),
            Some(Fault::ReadRootLinkFirst) => refusals.min_by_key(|&n| if n == 9 { 7 } else { n }),
            _ => refusals.min(),
        }
        .unwrap_or(0)
    }

    fn amount(&self, amount: u16) -> u64 {
        let most = match self.0 {
            Some(Fault::ReadAmount9999) => 9_999,
            Some(Fault::ReadAmount10001) => 10_001,
            _ => 10_000,
        };
        if amount > most { 6 } else { 0 }
    }

    fn wrong_cabinet(&self, c: usize, cabinet: &Cabinet) -> u64 {
        let words = cabinet.words();
        let fields = match self.0 {
            Some(Fault::ReadDownPrice) => &words[1..6],
            Some(Fault::ReadRootLinkIsNine) if c == 0 => &words[1..3],
            _ => &words[1..],
        };
        let too_large = fields.iter().any(|&a| self.amount(a) != 0);
        let parent = usize::from(cabinet.parent);
        let wrong_parent = match (c, self.0) {
            (0, Some(Fault::ReadRootParent)) => false,
            (0, _) => parent != 65_535,
            (_, Some(Fault::ReadOwnParent)) => parent > c,
            _ => parent >= c,
        };
        let link = c == 0 && words[3..] != [0; 4];
        match (too_large, wrong_parent, link) {
            (_, true, _) if self.has(Fault::ReadParentBefore6) => 7,
            (true, _, _) => 6,
            (_, true, _) => 7,
            (_, _, true) if !self.has(Fault::ReadRootLink) => 9,
            _ => 0,
        }
    }

    fn wrong_stream(&self, r: usize, stream: &Stream) -> u64 {
        let past = |end: u16| match self.has(Fault::ReadEndR) {
            true => usize::from(end) > r,
            false => usize::from(end) >= r,
        };
        let same = stream.from == stream.to && !self.has(Fault::ReadSameEnds);
        let past_to = past(stream.to) && !self.has(Fault::ReadFromOnly);
        if self.amount(stream.demand) != 0 && !self.has(Fault::ReadStreamDemand) {
            6
        } else if past(stream.from) || past_to || same {
            8
        } else {
            0
        }
    }

    /// A record by number, from the list of all.
    pub fn record<const N: usize>(
        &self,
        bytes: &[u8],
        number: usize,
        all: impl Fn(&Sheet) -> Vec<[u16; N]>,
    ) -> Option<[u16; N]> {
        let sheet = match self.records(bytes) {
            Ok(sheet) => sheet,
            Err(6..) if self.has(Fault::RecordOfRefused) => self.gather(bytes),
            Err(_) => return None,
        };
        let all = all(&sheet);
        let number = match self.0 {
            Some(Fault::RecordNumber16) => number % 65_536,
            Some(Fault::RecordNumber32) => number % (1 << 32),
            Some(Fault::RecordPastLast) if number == all.len() => number.saturating_sub(1),
            _ => number,
        };
        all.get(number).copied()
    }
}

/// Some byte behind the header up to the last block's end is in no block.
fn gap(blocks: &[Block; 3]) -> bool {
    let end = blocks.iter().map(|&(offset, size)| offset + size).max();
    let sizes: usize = blocks.iter().map(|&(_, size)| size).sum();
    end > Some(16 + sizes)
}
