//! The rows that an edit rebuilds, and its faults in them.

use crate::keep::Lent;
use crate::keys::Key;
use crate::rows::{NONE, Rows, children};
use crate::{Fault, Faulty};
use second::Sheet;
use second::path::ancestors;

impl Faulty {
    /// The cabinets whose rows are rebuilt, from the one edited up to the root.
    pub fn edit_path(&self, sheet: &Sheet, cabinet: usize) -> Vec<usize> {
        let mut path = ancestors(sheet, cabinet);
        match self.0 {
            Some(Fault::EditBelowRoot) if path.len() > 1 => drop(path.pop()),
            Some(Fault::EditNotItself) if path.len() > 1 => drop(path.remove(0)),
            Some(Fault::EditItselfOnly) => path.truncate(1),
            Some(Fault::EditTwoRows) => path.truncate(2),
            Some(Fault::EditRootOnly) => path = vec![0],
            Some(Fault::EditByNumbers) => path = (0..=cabinet).rev().collect(),
            Some(Fault::EditWhole) => path = (0..sheet.cabinets.len()).rev().collect(),
            Some(Fault::EditChildrenToo) => {
                let below = children(sheet, cabinet);
                path = below.into_iter().rev().chain(path).collect();
            }
            Some(Fault::EditSiblingsToo) if cabinet != 0 => {
                let mut all = children(sheet, path[1]);
                all.retain(|&c| c != cabinet);
                path = all.into_iter().rev().chain(path).collect();
            }
            _ => {}
        }
        path
    }

    /// The rows of the tables with those of the path rebuilt.
    pub fn rebuilt(&self, sheet: &Sheet, cabinet: usize, mut rows: Rows) -> Rows {
        if self.has(Fault::EditOneNone) {
            let figures = rows.costs.iter_mut().flatten();
            figures.filter(|f| **f > NONE).for_each(|f| *f %= NONE);
        }
        let builder = match self.has(Fault::EditTieEarlier) {
            true => Faulty(Some(Fault::TieEarlier)),
            false => Faulty(self.0),
        };
        let reader = Reader::new(builder.clone(), sheet);
        let bars = self.bars(sheet);
        for p in self.edit_path(sheet, cabinet) {
            for c in children(sheet, p) {
                if rows.keys[c].is_empty() {
                    rows.keys[c] = match self.has(Fault::EditKeysAlone) {
                        true => self.own_keys(sheet, c),
                        false => reader.keys(&rows, c),
                    };
                }
            }
            let old = self.has(Fault::EditOldKeys).then(|| reader.keys(&rows, p));
            let shut = p == cabinet && self.stays_shut(sheet, p, &rows);
            let rebuilder = self.rebuilder(p, cabinet);
            let rebuilder = rebuilder.as_ref().unwrap_or(&builder);
            rebuilder.rebuild(sheet, &bars, p, &mut rows);
            if shut {
                rows.costs[p][1..].fill(NONE);
            }
            if let Some(old) = old {
                rows.keys[p] = old;
            }
        }
        rows
    }

    /// Writes the rows of the path, old or rebuilt, and the choices of the children.
    pub fn write_rows(&self, sheet: &Sheet, path: &[usize], rows: [&Rows; 2], lent: &mut Lent) {
        let n = 1 << sheet.services.len();
        let [old, new] = rows;
        for &p in path {
            lent.costs[p * n..][..n].copy_from_slice(&new.costs[p]);
            for c in children(sheet, p) {
                let entries = self.choices_of(old, new, c, (path.contains(&c), p == path[0]));
                lent.choices[c * n..][..n].copy_from_slice(&entries);
            }
        }
        let off = (1..sheet.cabinets.len()).find(|c| !path.contains(c));
        match (off, self.0) {
            (Some(c), Some(Fault::EditOffCleared)) => lent.costs[c * n..][..n].fill(0),
            (_, Some(Fault::EditRootChoices)) => lent.choices[..n].fill(0),
            (_, Some(Fault::EditOnePast)) => {
                let past = lent.choices.iter_mut().skip(sheet.cabinets.len() * n);
                past.take(1).for_each(|entry| *entry = 0);
            }
            _ => {}
        }
    }

    /// The choice row of c after an edit, which may be on the path, or a child of the cabinet
    /// edited.
    fn choices_of(
        &self,
        old: &Rows,
        new: &Rows,
        c: usize,
        (on_path, of_edited): (bool, bool),
    ) -> Vec<u16> {
        let kept = match self.0 {
            Some(Fault::EditChoicesKept) => true,
            Some(Fault::EditSiblingsKept) => !on_path && !of_edited,
            Some(Fault::EditChildrenKept) => of_edited,
            Some(Fault::EditPathKept) => on_path,
            _ => false,
        };
        let from = if kept { old } else { new };
        let mut row: Vec<u16> = from.choices[c].iter().map(|&stays| stays as u16).collect();
        row[0] = match self.0 {
            Some(Fault::EditCountsKept) => old.counted[c],
            Some(Fault::EditNoCounts) => 0,
            _ => from.counted[c],
        } as u16;
        row
    }

    /// The plan by the choices: of each entry only what is in the set counts.
    pub fn edited_plan(&self, sheet: &Sheet, rows: &Rows) -> Vec<u16> {
        let (r, s) = (sheet.services.len(), sheet.cabinets.len());
        let mut plan = vec![0; r];
        let mut held = vec![0; s];
        held[0] = (1 << r) - 1;
        for p in 0..s {
            for &c in children(sheet, p).iter().rev() {
                let kept = self.stays(rows, c, held[p]) & ((1 << r) - 1);
                held[c] = held[p] & !kept;
                held[p] = kept;
            }
            for (service, place) in plan.iter_mut().enumerate() {
                if held[p] >> service & 1 == 1 {
                    *place = p as u16;
                }
            }
        }
        plan
    }

    /// What stays of a set by the choice of c.
    fn stays(&self, rows: &Rows, c: usize, set: usize) -> usize {
        match (set, self.0) {
            (0, Some(Fault::EditEmptyRead)) => rows.counted[c] as usize,
            (1.., Some(Fault::EditUnmasked)) => rows.choices[c][set],
            _ => rows.choices[c][set] & set,
        }
    }
}

/// Reads keys back from choices.
struct Reader {
    own: Vec<Vec<Key>>,
    below: Vec<Vec<usize>>,
}

impl Reader {
    fn new(faulty: Faulty, sheet: &Sheet) -> Reader {
        let all = 0..sheet.cabinets.len();
        Reader {
            own: all.clone().map(|c| faulty.own_keys(sheet, c)).collect(),
            below: all.map(|c| children(sheet, c)).collect(),
        }
    }

    /// The keys of what the choices give each set on p and all under it.
    fn keys(&self, rows: &Rows, p: usize) -> Vec<Key> {
        let sets = 0..self.own[p].len();
        sets.map(|set| self.key(rows, p, set)).collect()
    }

    fn key(&self, rows: &Rows, p: usize, set: usize) -> Key {
        let mut held = set;
        let mut sum = Key::default();
        for &c in self.below[p].iter().rev() {
            let stays = rows.choices[c][held] & held;
            let rest = held & !stays;
            if rest != 0 {
                sum = sum + self.key(rows, c, rest);
            }
            held = stays;
        }
        sum + self.own[p][held]
    }
}
