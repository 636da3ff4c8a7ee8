//! What the planning program must print for a sheet.

use crate::run::Ran;
use second::{Answer, plan};

/// The most bytes that the program takes.
pub const MOST_BYTES: usize = 4096;
/// The entries of each of its tables.
pub const ENTRIES: usize = 4096;
/// Output places, enough for any sheet.
const OUTPUT: usize = 10;

/// The right answer: 17 before all else, then the planner's.
pub fn answer(sheet: &[u8]) -> Answer {
    if sheet.len() > MOST_BYTES {
        return Answer {
            refusal: 17,
            ..Answer::default()
        };
    }
    plan(sheet, OUTPUT, ENTRIES, ENTRIES)
}

/// The refusal of the sheet, or 0 for a plan, if this is what the run printed. An exit status or a
/// signal may mark the end alike.
pub fn judge(sheet: &[u8], ran: &Ran) -> Result<u64, String> {
    let answer = answer(sheet);
    match str::from_utf8(&ran.output) {
        Ok(printed) => agrees(&answer, printed).map(|()| answer.refusal),
        Err(_) => Err("it printed something that is no text".to_string()),
    }
}

/// Whether the printed text gives this answer.
pub fn agrees(answer: &Answer, printed: &str) -> Result<(), String> {
    let text = text(answer);
    match printed == text {
        true => Ok(()),
        false => Err(format!("should print {text:?}")),
    }
}

/// What is printed for an answer: the refusal, or cost, count and a line for each service with its
/// number and its cabinet.
fn text(answer: &Answer) -> String {
    let Some(plan) = &answer.plan else {
        return format!("refused {}\n", answer.refusal);
    };
    let places = plan.iter().enumerate();
    let lines: String = places.map(|(i, c)| format!("{i} {c}\n")).collect();
    format!("cost {}\nweighed {}\n{lines}", answer.cost, answer.count)
}

#[cfg(test)]
mod tests {
    use super::*;
    use second::build::tight;
    use second::measured::{m, m_barred, roads};

    #[test]
    fn m0_to_the_letter() {
        let m0 = &roads()[2].sheet;
        let right = answer(m0);
        assert!(agrees(&right, "cost 15\nweighed 12\n0 1\n1 2\n").is_ok());
        for wrong in [
            "cost 15\nweighed 12\n0 1\n1 2",
            "cost 15\nweighed 12\n0 1\n1 2\n\n",
            "cost 15\nweighed 12\n0 1\n1 02\n",
            "cost 15\nweighed 12\n0 1\n",
            "cost 15\nweighed 12\n0 2\n1 1\n",
            "cost 15\nweighed 13\n0 1\n1 2\n",
            "cost 14\nweighed 12\n0 1\n1 2\n",
            "refused 12\n",
            "",
        ] {
            assert!(agrees(&right, wrong).is_err(), "{wrong:?}");
        }
    }

    #[test]
    fn the_first_of_the_cheapest_plans_of_m() {
        let right = answer(&m());
        assert!(agrees(&right, "cost 15\nweighed 18\n0 0\n1 1\n").is_ok());
        assert!(agrees(&right, "cost 15\nweighed 18\n0 1\n1 2\n").is_err());
        assert!(agrees(&right, "cost 15\nweighed 18\n0 1\n1 0\n").is_err());
    }

    #[test]
    fn no_barred_pair() {
        let sheet = tight(&m_barred(&[[0, 0]]));
        let right = answer(&sheet);
        assert!(agrees(&right, "cost 15\nweighed 15\n0 1\n1 2\n").is_ok());
        assert!(agrees(&right, "cost 15\nweighed 15\n0 0\n1 1\n").is_err());
        let cut = &sheet[..sheet.len() - 1];
        assert!(agrees(&answer(cut), "refused 3\n").is_ok());
        let unnamed = tight(&m_barred(&[[0, 3]]));
        assert!(agrees(&answer(&unnamed), "refused 19\n").is_ok());
        assert!(agrees(&answer(&unnamed), "refused 18\n").is_err());
    }

    #[test]
    fn refusals() {
        let right = answer(&[0; 4097]);
        assert!(agrees(&right, "refused 17\n").is_ok());
        assert!(agrees(&right, "refused 2\n").is_err());
        assert_eq!(answer(&[0; 4096]).refusal, 2);
    }
}
