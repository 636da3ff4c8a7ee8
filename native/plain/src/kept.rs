//! The tables of a keeping call, and what an edit makes of any tables, by rows with keys.

use crate::charges::Charges;
use crate::keyed::{Key, Row, digits, key};
use crate::{NONE, Rules, children};
use second::check::check_sheet;
use second::path::ancestors;
use second::{Answer, Sheet, Tables};

/// What an edit answers; `open` where a sum of three costs was just above the largest cost, which
/// tables of no road can lead to: what the choices hold there is left open.
pub struct Edited {
    pub answer: Answer,
    pub open: bool,
}

/// The tables that a keeping call leaves for an accepted sheet.
pub fn tables(sheet: &Sheet) -> Tables {
    let road = Road::new(sheet);
    let entries = sheet.cabinets.len() * road.row;
    let mut tables = Tables {
        costs: vec![0; entries],
        choices: vec![0; entries],
    };
    let mut keys = vec![vec![]; sheet.cabinets.len()];
    for p in (0..sheet.cabinets.len()).rev() {
        keys[p] = road.rebuild(p, &mut tables, &keys).0;
    }
    tables
}

/// Rebuilds the rows from a cabinet up to the root in tables that hold anything, and answers.
pub fn edit(sheet: &Sheet, cabinet: usize, tables: &mut Tables) -> Edited {
    let road = Road::new(sheet);
    let mut keys = vec![vec![]; sheet.cabinets.len()];
    let mut open = false;
    for p in ancestors(sheet, cabinet) {
        for &c in &road.children[p] {
            if keys[c].is_empty() {
                let sets = 0..road.row;
                keys[c] = sets.map(|set| road.read(tables, c, set)).collect();
            }
        }
        let (rebuilt, is_open) = road.rebuild(p, tables, &keys);
        keys[p] = rebuilt;
        open |= is_open;
    }
    Edited {
        answer: answer(sheet, tables),
        open,
    }
}

/// What tables answer: the cost of the root's row, the sum of the counts, and the plan by the
/// choices, unless the check does not accept it at that cost.
pub fn answer(sheet: &Sheet, tables: &Tables) -> Answer {
    let road = Road::new(sheet);
    let joins = 1..sheet.cabinets.len();
    let count = joins.map(|c| u64::from(tables.choices[c * road.row])).sum();
    let all = road.row - 1;
    let cost = tables.costs[all];
    if cost >= NONE {
        return Answer::refused(12, count);
    }
    let plan = road.plan(tables);
    match check_sheet(sheet, &plan) {
        Ok(checked) if checked == cost => Answer {
            cost,
            count,
            plan: Some(plan),
            ..Answer::default()
        },
        _ => Answer::refused(23, 0),
    }
}

/// The plan that tables lead to, by the choices alone.
pub fn led_to(sheet: &Sheet, tables: &Tables) -> Vec<u16> {
    Road::new(sheet).plan(tables)
}

/// A road with what is looked up often.
struct Road<'a> {
    sheet: &'a Sheet,
    charges: Charges,
    children: Vec<Vec<usize>>,
    /// Entries of a row.
    row: usize,
}

impl Road<'_> {
    fn new(sheet: &Sheet) -> Road<'_> {
        Road {
            sheet,
            charges: Charges::new(sheet, Rules::ALL),
            children: children(sheet),
            row: 1 << sheet.services.len(),
        }
    }

    /// Rebuilds the row of p and the choices of its children, whose keys are given. Gives its keys,
    /// and whether something is left open.
    fn rebuild(&self, p: usize, tables: &mut Tables, keys: &[Vec<Key>]) -> (Vec<Key>, bool) {
        let r = self.sheet.services.len();
        let mut row = Row {
            costs: vec![0; self.row],
            keys: (0..self.row).map(|set| key(r, set, p)).collect(),
        };
        self.charges
            .cabinet(p, &self.sheet.cabinets[p], &mut row.costs);
        let mut link = vec![0; self.row];
        let mut open = false;
        for &c in &self.children[p] {
            self.charges.link(&self.sheet.cabinets[c], &mut link);
            let places = c * self.row..(c + 1) * self.row;
            let child = Row {
                costs: tables.costs[places.clone()].to_vec(),
                keys: keys[c].clone(),
            };
            open |= row.join(&child, &link, &mut tables.choices[places]).open;
        }
        tables.costs[p * self.row..][..self.row].copy_from_slice(&row.costs);
        (row.keys, open)
    }

    /// The plan by the choices.
    fn plan(&self, tables: &Tables) -> Vec<u16> {
        let key = self.read(tables, 0, self.row - 1);
        digits(self.sheet.services.len(), key)
    }

    /// The key of the placing that the choices name for a set on p and all under it. Of each entry
    /// only what is in the set counts.
    fn read(&self, tables: &Tables, p: usize, set: usize) -> Key {
        let mut held = set;
        let mut sum = 0;
        for &c in self.children[p].iter().rev() {
            let stays = usize::from(tables.choices[c * self.row + held]) & held;
            let rest = held & !stays;
            if rest != 0 {
                sum += self.read(tables, c, rest);
            }
            held = stays;
        }
        sum + key(self.sheet.services.len(), held, p)
    }
}
