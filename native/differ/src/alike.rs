//! A sheet beside its tidy copy.

/// A sheet and, if it is accepted, its tidy copy: two sheets that check and planner answer alike
/// for.
pub struct Alike<'a> {
    pub sheet: &'a [u8],
    pub copy: Option<Vec<u8>>,
}

impl Alike<'_> {
    pub fn new(sheet: &[u8]) -> Alike<'_> {
        let records = second::read(sheet).ok();
        Alike {
            sheet,
            copy: records.map(|records| second::tidy::copy(&records)),
        }
    }

    /// Makes the same comparison with the sheet and with the copy.
    pub fn each(&self, mut compare: impl FnMut(&[u8]) -> Result<(), String>) -> Result<(), String> {
        compare(self.sheet)?;
        match &self.copy {
            Some(copy) => compare(copy).map_err(|what| of_copy(&what)),
            None => Ok(()),
        }
    }
}

/// A difference with the copy in place of the sheet.
pub fn of_copy(what: &str) -> String {
    format!("with the tidy copy: {what}")
}
