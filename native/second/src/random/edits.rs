//! Edits: a sheet in which one cabinet has other amounts.

use super::Random;
use super::amounts::Scale;
use crate::limits::AMOUNT;
use crate::sheet::{Cabinet, Sheet};

/// What is done to a cabinet's record; its parent stays.
#[derive(Clone, Copy, Debug, PartialEq, Eq)]
enum Change {
    /// Nothing at all.
    Nothing,
    /// One amount is another.
    OneField,
    /// One amount is one more or one less.
    Nudge,
    /// All amounts are others.
    AllFields,
    /// Room for nothing.
    Shut,
    /// Room for everything.
    Open,
    /// The amounts of another cabinet.
    Like,
    /// The amounts that it had at first.
    Back,
    /// It is a joint.
    Joint,
    /// It is none, and has room for services of demand 0 and perhaps for others.
    Box,
}

/// The changes, each as often as it stands here.
const CHANGES: [Change; 19] = [
    Change::Nothing,
    Change::OneField,
    Change::OneField,
    Change::OneField,
    Change::Nudge,
    Change::Nudge,
    Change::Nudge,
    Change::AllFields,
    Change::AllFields,
    Change::Shut,
    Change::Shut,
    Change::Open,
    Change::Open,
    Change::Like,
    Change::Like,
    Change::Back,
    Change::Joint,
    Change::Box,
    Change::Box,
];

/// A list of edits of a road: each gives the cabinet and the sheet after it.
pub struct Edits {
    first: Sheet,
    now: Sheet,
    /// The cabinet edited last, and its record before.
    last: Option<(usize, Cabinet)>,
}

impl Edits {
    pub fn new(sheet: &Sheet) -> Edits {
        Edits {
            first: sheet.clone(),
            now: sheet.clone(),
            last: None,
        }
    }

    /// The sheet after all edits so far.
    pub fn sheet(&self) -> &Sheet {
        &self.now
    }

    /// The next edit after a call that gave this plan, or 12: sometimes one that makes a joint of a
    /// cabinet in use, and often one that takes back what led to 12 or to a joint.
    pub fn after(&mut self, random: &mut Random, plan: Option<&[u16]>) -> usize {
        match plan {
            None if random.once_in(2) => self.back(random),
            Some(_) if self.made_joint() && random.once_in(2) => self.back(random),
            Some(used @ [_, ..]) if random.once_in(4) => {
                let cabinet = usize::from(random.pick(used));
                let joint = self.changed(random, cabinet, Change::Joint);
                self.put(cabinet, joint)
            }
            _ => self.next(random),
        }
    }

    /// The next edit of any cabinet.
    pub fn next(&mut self, random: &mut Random) -> usize {
        let cabinet = some_cabinet(random, &self.now);
        let change = random.pick(&CHANGES);
        let record = self.changed(random, cabinet, change);
        self.put(cabinet, record)
    }

    /// An edit that gives the cabinet edited last what it had at first.
    pub fn back(&mut self, random: &mut Random) -> usize {
        match self.last {
            Some((cabinet, _)) => self.put(cabinet, self.first.cabinets[cabinet]),
            None => self.next(random),
        }
    }

    /// Gives a cabinet this record.
    fn put(&mut self, cabinet: usize, record: Cabinet) -> usize {
        self.last = Some((cabinet, self.now.cabinets[cabinet]));
        self.now.cabinets[cabinet] = record;
        cabinet
    }

    /// The last edit made a joint of a cabinet.
    pub fn made_joint(&self) -> bool {
        self.turned(|before, after| !before.is_joint() && after.is_joint())
    }

    /// The last edit made a cabinet of a joint.
    pub fn made_cabinet(&self) -> bool {
        self.turned(|before, after| before.is_joint() && !after.is_joint())
    }

    /// The last edit did this to the record of a cabinet.
    fn turned(&self, turn: impl Fn(&Cabinet, &Cabinet) -> bool) -> bool {
        self.last
            .is_some_and(|(cabinet, before)| turn(&before, &self.now.cabinets[cabinet]))
    }

    /// The record of a cabinet after a change.
    fn changed(&self, random: &mut Random, cabinet: usize, change: Change) -> Cabinet {
        let mut words = self.now.cabinets[cabinet].words();
        let scale = random.pick(&[Scale::Small, Scale::Small, Scale::Ties, Scale::Wide]);
        // The link fields of the root stay 0.
        let fields = if cabinet == 0 { 1..3 } else { 1..7 };
        let one = random.between(fields.start, fields.end - 1);
        let other = self.now.cabinets[some_cabinet(random, &self.now)].words();
        for k in fields {
            let room = k == 1 || k == 3 || k == 5;
            words[k] = match change {
                Change::OneField if k == one => scale.amount(random),
                Change::Nudge if k == one => nudged(random, words[k]),
                Change::AllFields => scale.amount(random),
                Change::Shut if room => 0,
                Change::Open if room => AMOUNT,
                Change::Like => other[k],
                Change::Back => self.first.cabinets[cabinet].words()[k],
                Change::Joint if k == 1 => 0,
                Change::Box if k == 1 => words[k].max(1 + random.below(3) as u16),
                _ => words[k],
            };
        }
        Cabinet::from_words(words)
    }
}

/// One more or one less, within the limits.
fn nudged(random: &mut Random, amount: u16) -> u16 {
    match random.once_in(2) {
        true => amount.saturating_sub(1),
        false => (amount + 1).min(AMOUNT),
    }
}

/// A cabinet: the root or a leaf more often than by chance.
pub fn some_cabinet(random: &mut Random, sheet: &Sheet) -> usize {
    let s = sheet.cabinets.len();
    let any = random.below(s);
    random.pick(&[0, s - 1, any, any, any, any])
}

/// A record of other amounts for a cabinet.
pub fn other_record(random: &mut Random, sheet: &Sheet, cabinet: usize) -> Cabinet {
    let edits = Edits::new(sheet);
    let change = random.pick(&[
        Change::OneField,
        Change::AllFields,
        Change::Shut,
        Change::Open,
        Change::Joint,
        Change::Box,
    ]);
    edits.changed(random, cabinet, change)
}
