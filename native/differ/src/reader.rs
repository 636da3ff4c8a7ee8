//! Compares the reader and its record calls.

use crate::guarded::{Guarded, same};
use crate::{Subject, Tally};
use second::random::Random;
use second::{Cabinet, Pair, Sheet, Stream, group};

/// The refusal, the group and the four counts, by what is right to read.
pub fn read(
    subject: &dyn Subject,
    sheet: &[u8],
    right: &Result<Sheet, u64>,
    random: &mut Random,
    tally: &mut Tally,
) -> Result<(), String> {
    let (right, counts) = match right {
        Ok(records) => (0, counts(records)),
        Err(refusal) => (*refusal, [group(*refusal), 0, 0, 0, 0]),
    };
    let sheet = Guarded::holding(random, sheet);
    let mut answer = Guarded::dirty(random, 5);
    let refusal = subject.read(sheet.inside(), answer.array());
    same("read", refusal, right)?;
    answer.expect("read: counts", &counts)?;
    sheet.expect_same("read: sheet")?;
    tally.answer("read", right);
    Ok(())
}

/// What the reader tells of an accepted sheet.
fn counts(sheet: &Sheet) -> [u64; 5] {
    [
        0,
        sheet.services.len() as u64,
        sheet.cabinets.len() as u64,
        sheet.streams.len() as u64,
        sheet.barred.len() as u64,
    ]
}

/// Every record, and some numbers that are not there.
pub fn records(
    subject: &dyn Subject,
    sheet: &[u8],
    right: &Result<Sheet, u64>,
    random: &mut Random,
    tally: &mut Tally,
) -> Result<(), String> {
    let right = right.clone().unwrap_or_default();
    let services: Vec<[u16; 1]> = right.services.iter().map(|&d| [d]).collect();
    let cabinets: Vec<[u16; 7]> = right.cabinets.iter().map(Cabinet::words).collect();
    let streams: Vec<[u16; 3]> = right.streams.iter().map(Stream::words).collect();
    let barred: Vec<[u16; 2]> = right.barred.iter().map(Pair::words).collect();
    let service = |number, record: &mut _| subject.service(sheet, number, record);
    let cabinet = |number, record: &mut _| subject.cabinet(sheet, number, record);
    let stream = |number, record: &mut _| subject.stream(sheet, number, record);
    let pair = |number, record: &mut _| subject.barred(sheet, number, record);
    each("service", &services, service, random, tally)?;
    each("cabinet", &cabinets, cabinet, random, tally)?;
    each("stream", &streams, stream, random, tally)?;
    each("barred", &barred, pair, random, tally)
}

/// Every record of one kind, the next numbers, and numbers that are small in fewer bits.
fn each<const N: usize>(
    name: &'static str,
    right: &[[u16; N]],
    call: impl Fn(usize, &mut [u64; N]) -> u64,
    random: &mut Random,
    tally: &mut Tally,
) -> Result<(), String> {
    let past = [256, 65_535, 65_536, 1 << 32, usize::MAX];
    for number in (0..right.len() + 2).chain(past) {
        let mut record = Guarded::dirty(random, N);
        let found = call(number, record.array());
        let words = right.get(number).map(|words| words.map(u64::from));
        let call = format!("{name} {number}");
        same(&call, found, u64::from(words.is_some()))?;
        match words {
            Some(words) => record.expect(&call, &words)?,
            None => record.expect_same(&call)?,
        }
        tally.answer(name, found);
    }
    Ok(())
}
