//! Compares the writer of tidy copies.

use crate::alike::{Alike, of_copy};
use crate::guarded::{Guarded, same};
use crate::{Subject, Tally, reader};
use second::limits::LONGEST_COPY;
use second::random::Random;
use second::tidy::in_order;
use second::{Sheet, group};

/// The refusal, the group, the length and every byte, for outputs of several lengths.
pub fn tidy(
    subject: &dyn Subject,
    alike: &Alike,
    random: &mut Random,
    tally: &mut Tally,
) -> Result<(), String> {
    let unwritten = alike.sheet.len().min(LONGEST_COPY);
    let exact = alike.copy.as_ref().map_or(unwritten, Vec::len);
    for length in lengths(random, exact) {
        let mut right = vec![0; length];
        let (refusal, written) = match second::tidy(alike.sheet, &mut right) {
            Ok(written) => (0, written),
            Err(refusal) => (refusal, 0),
        };
        let right = (refusal, &right[..written]);
        write(subject, alike.sheet, length, right, random)?;
        tally.answer("tidy", refusal);
    }
    tally.forms(alike.sheet);
    Ok(())
}

/// The copy is read as the sheet is, with its pairs in order, and its own copy is no other.
pub fn copy(
    subject: &dyn Subject,
    alike: &Alike,
    random: &mut Random,
    tally: &mut Tally,
) -> Result<(), String> {
    let (Some(copy), Ok(records)) = (&alike.copy, second::read(alike.sheet)) else {
        return Ok(());
    };
    let right = Ok(Sheet {
        barred: in_order(&records.barred),
        ..records
    });
    let mut compare = || {
        reader::read(subject, copy, &right, random, tally)?;
        reader::records(subject, copy, &right, random, tally)?;
        write(subject, copy, copy.len(), (0, copy), random)
    };
    compare().map_err(|what| of_copy(&what))
}

/// Lengths of outputs: none at all, some bytes short, one byte short, just enough, one byte more,
/// and many more.
fn lengths(random: &mut Random, exact: usize) -> [usize; 6] {
    let more = exact + random.between(2, 400);
    [
        0,
        random.below(exact),
        exact.saturating_sub(1),
        exact,
        exact + 1,
        random.pick(&[more, more, more, more, more, more, more, LONGEST_COPY]),
    ]
}

/// One call with an output of this length, which must give this refusal and write these bytes.
fn write(
    subject: &dyn Subject,
    sheet: &[u8],
    length: usize,
    (right, copy): (u64, &[u8]),
    random: &mut Random,
) -> Result<(), String> {
    let call = format!("tidy with {length} bytes");
    let sheet = Guarded::holding(random, sheet);
    let mut output = Guarded::dirty(random, length);
    let mut answer = Guarded::dirty(random, 2);
    let refusal = subject.tidy(sheet.inside(), output.inside_mut(), answer.array());
    same(&call, refusal, right)?;
    let values = [group(right), copy.len() as u64];
    answer.expect(&format!("{call}: answer"), &values)?;
    output.expect(&format!("{call}: output"), copy)?;
    sheet.expect_same(&format!("{call}: sheet"))
}
