//! What the program that writes tidy copies must leave for an input.

use crate::run::Ran;
use second::limits::LONGEST_COPY;

/// The most bytes that the program reads: one more than a sheet can have.
pub const MOST_READ: usize = 65_536;

/// The refusal of the input's first bytes, or 0, if this is what the run left: the copy and status
/// 0, or one line and status 1.
pub fn judge(input: &[u8], ran: &Ran) -> Result<u64, String> {
    let read = &input[..input.len().min(MOST_READ)];
    let mut copy = vec![0; LONGEST_COPY];
    let (refusal, right) = match second::tidy(read, &mut copy) {
        Ok(length) => (0, copied(&copy[..length])),
        Err(refusal) => (refusal, refused(refusal)),
    };
    agrees(&right, ran).map(|()| refusal)
}

/// What is left after a copy.
fn copied(copy: &[u8]) -> Ran {
    Ran {
        output: copy.to_vec(),
        errors: vec![],
        status: Some(0),
    }
}

/// What is left after a refusal.
fn refused(refusal: u64) -> Ran {
    Ran {
        output: vec![],
        errors: format!("refused {refusal}\n").into_bytes(),
        status: Some(1),
    }
}

/// The run left what is right.
fn agrees(right: &Ran, ran: &Ran) -> Result<(), String> {
    if ran.errors != right.errors {
        let right = String::from_utf8_lossy(&right.errors);
        return Err(format!("should write {right:?} to standard error"));
    }
    if ran.status != right.status {
        return Err(format!(
            "exits with {:?}, not {:?}",
            ran.status, right.status
        ));
    }
    if ran.output == right.output {
        return Ok(());
    }
    let mut bytes = right.output.iter().zip(&ran.output);
    let place = bytes.position(|(right, written)| right != written);
    Err(match place {
        Some(place) => format!("byte {place} should be {}", right.output[place]),
        None => format!(
            "writes {} bytes, should write {}",
            ran.output.len(),
            right.output.len()
        ),
    })
}

#[cfg(test)]
mod tests {
    use super::*;
    use second::build::put;
    use second::measured::m;

    /// M as the program is to copy it, with one byte behind it.
    fn m_apart() -> Vec<u8> {
        let mut sheet = m();
        sheet.push(9);
        sheet[12] += 1;
        sheet
    }

    #[test]
    fn the_copy_to_the_byte() {
        let right = copied(&m());
        assert_eq!(judge(&m_apart(), &right), Ok(0));
        let mut wrong = vec![right.clone(); 6];
        wrong[0].output.push(0);
        wrong[1].output.pop();
        wrong[2].output[67] ^= 1;
        wrong[3].errors = b"\n".to_vec();
        wrong[4].status = Some(1);
        wrong[5].status = None;
        for wrong in wrong {
            assert!(judge(&m_apart(), &wrong).is_err(), "{wrong:?}");
        }
    }

    #[test]
    fn the_refusal_to_the_letter() {
        let cut = &m()[..67];
        let right = refused(3);
        assert_eq!(judge(cut, &right), Ok(3));
        let mut wrong = vec![right.clone(); 7];
        wrong[0].output = b"refused 3\n".to_vec();
        wrong[1].errors = b"refused 3".to_vec();
        wrong[2].errors = b"refused 4\n".to_vec();
        wrong[3].errors = b"refused 3\nrefused 3\n".to_vec();
        wrong[4].errors = vec![];
        wrong[5].status = Some(0);
        wrong[6].status = Some(2);
        for wrong in wrong {
            assert!(judge(cut, &wrong).is_err(), "{wrong:?}");
        }
    }

    #[test]
    fn never_17() {
        for length in [65_535, 65_536, 65_537, 200_000] {
            let mut input = m();
            input.resize(length, 0);
            assert_eq!(judge(&input, &refused(3)), Ok(3));
            assert!(judge(&input, &refused(17)).is_err());
            put(&mut input, 0, [11]);
            assert_eq!(judge(&input, &refused(2)), Ok(2));
        }
        let mut input = m();
        input.resize(65_535, 0);
        put(&mut input, 12, [65_535]);
        assert_eq!(judge(&input, &copied(&m())), Ok(0));
    }
}
