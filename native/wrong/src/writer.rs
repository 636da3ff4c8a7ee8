//! The writer of tidy copies and its faults in what is answered and where bytes are written.

use crate::{Fault, Faulty};
use second::group;

impl Faulty {
    /// The refusal, and group and length.
    pub fn tidy_answer(&self, bytes: &[u8], output: &mut [u8]) -> (u64, [u64; 2]) {
        let sheet = match self.records(bytes) {
            Ok(sheet) => sheet,
            Err(refusal) => return self.unread(bytes, output, refusal),
        };
        let copy = self.copy(bytes, &sheet);
        if self.too_short(bytes.len(), copy.len(), output.len()) {
            return self.cut(&copy, output);
        }
        self.write(&copy, output);
        let length = match self.has(Fault::TidySheetAnswered) {
            true => bytes.len(),
            false => copy.len(),
        };
        (0, [0, length as u64])
    }

    /// The answer for a sheet that the reader refuses.
    fn unread(&self, bytes: &[u8], output: &mut [u8], refusal: u64) -> (u64, [u64; 2]) {
        if self.has(Fault::TidyTouchedInReader) {
            output.fill(0);
        }
        let length = match self.has(Fault::TidyLengthInReader) {
            true => bytes.len(),
            false => 0,
        };
        let refusal = self.output_first(bytes, output.len(), refusal);
        (refusal, [group(refusal), length as u64])
    }

    /// The reader's refusal, unless 21 comes before it.
    fn output_first(&self, bytes: &[u8], output: usize, refusal: u64) -> u64 {
        let short = match self.0 {
            // No copy is shorter than a header and one cabinet.
            Some(Fault::TidyShortFirst) => output < 30,
            Some(Fault::TidyShortBefore18) if refusal >= 18 => {
                output < self.copy(bytes, &self.gather(bytes)).len()
            }
            _ => false,
        };
        if short { 21 } else { refusal }
    }

    /// The output is too short for the copy of a sheet.
    fn too_short(&self, sheet: usize, copy: usize, output: usize) -> bool {
        match self.0 {
            Some(Fault::TidyExactRefused) => output <= copy,
            Some(Fault::TidyOneShort) => output + 1 < copy,
            Some(Fault::TidyRoomForSheet) => output < sheet,
            Some(Fault::TidyRoomIn8Bits) => output < copy % 256,
            _ => output < copy,
        }
    }

    /// The answer for an output that is too short.
    fn cut(&self, copy: &[u8], output: &mut [u8]) -> (u64, [u64; 2]) {
        if self.has(Fault::TidyPartWritten) {
            self.write(copy, output);
        }
        match self.0 {
            Some(Fault::TidyNumber) => (10, [2, 0]),
            Some(Fault::TidyGroup) => (21, [1, 0]),
            Some(Fault::TidyLengthIn21) => (21, [2, copy.len() as u64]),
            _ => (21, [2, 0]),
        }
    }

    /// Writes the copy as far as there is room.
    fn write(&self, copy: &[u8], output: &mut [u8]) {
        let cleared = match self.0 {
            Some(Fault::TidyRestCleared) => output.len(),
            Some(Fault::TidyOnePast) => copy.len() + 1,
            _ => 0,
        };
        output.iter_mut().take(cleared).for_each(|place| *place = 0);
        let places = output.iter_mut().zip(copy);
        places.for_each(|(place, &byte)| *place = byte);
    }
}
