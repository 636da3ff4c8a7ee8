//! Runs edits and whole new runs by turns.

use crate::roads::{Shape, records};
use crate::timing::{ENTRIES, OUTPUT, median};
use gazrieksne::calls::{edit, keep};
use second::Sheet;
use second::build::tight;
use second::limits::{CABINETS, SERVICES};
use second::path::ancestors;
use std::hint::black_box;
use std::time::Instant;

/// Median seconds of the edit, and of a keeping call on the edited sheet.
pub struct Times {
    pub edit: f64,
    pub keep: f64,
}

/// An edit that is timed: the road, and the cabinet whose price changes.
pub struct Edit {
    pub name: &'static str,
    sheet: Sheet,
    cabinet: usize,
}

/// The edits that are timed, on roads of as many services and cabinets as there can be.
pub fn all() -> Vec<Edit> {
    let edit = |name, shape, cabinet| Edit {
        name,
        sheet: records(shape, SERVICES, CABINETS),
        cabinet,
    };
    let last = CABINETS - 1;
    vec![
        edit("end of a chain", Shape::CHAIN, last),
        edit("middle of a chain", Shape::CHAIN, CABINETS / 2),
        edit("root of a chain", Shape::CHAIN, 0),
        edit("leaf of a random tree", Shape::TREE, last),
        edit("root of a random tree", Shape::TREE, 0),
    ]
}

/// What a call is lent.
struct Lent {
    output: Vec<u16>,
    costs: Vec<u64>,
    choices: Vec<u16>,
}

impl Lent {
    fn new() -> Lent {
        Lent {
            output: vec![0; OUTPUT],
            costs: vec![0; ENTRIES],
            choices: vec![0; ENTRIES],
        }
    }

    /// A keeping call: its seconds, and its refusal and answer.
    fn keep(&mut self, sheet: &[u8]) -> (f64, (u64, [u64; 3])) {
        let Lent {
            output,
            costs,
            choices,
        } = self;
        let mut answer = [0; 3];
        let start = Instant::now();
        let refusal = keep(black_box(sheet), output, costs, choices, &mut answer);
        (start.elapsed().as_secs_f64(), (refusal, answer))
    }

    /// An edit, in the same way.
    fn edit(&mut self, sheet: &[u8], cabinet: usize) -> (f64, (u64, [u64; 3])) {
        let Lent {
            output,
            costs,
            choices,
        } = self;
        let mut answer = [0; 3];
        let start = Instant::now();
        let refusal = edit(
            black_box(sheet),
            cabinet,
            output,
            costs,
            choices,
            &mut answer,
        );
        (start.elapsed().as_secs_f64(), (refusal, answer))
    }
}

impl Edit {
    /// The children of the cabinets from the one edited up to the root.
    pub fn joins(&self) -> usize {
        let path = ancestors(&self.sheet, self.cabinet);
        let others = self.sheet.cabinets.iter().skip(1);
        let joined = others.filter(|cabinet| path.contains(&usize::from(cabinet.parent)));
        joined.count()
    }

    /// The joins of a whole run.
    pub fn all_joins(&self) -> usize {
        self.sheet.cabinets.len() - 1
    }

    /// The sheet with the cabinet so much dearer.
    fn dearer(&self, by: u16) -> Vec<u8> {
        let mut sheet = self.sheet.clone();
        sheet.cabinets[self.cabinet].price += by;
        tight(&sheet)
    }

    /// Times the edit and a keeping call, one after the other in each run; both must answer and
    /// leave the same. The price goes up and down by turns.
    pub fn times(&self, runs: usize) -> Times {
        let sheets = [self.dearer(0), self.dearer(1)];
        let (mut edited, mut kept) = (Lent::new(), Lent::new());
        edited.keep(&sheets[0]);
        let (mut edits, mut keeps) = (vec![], vec![]);
        for run in 1..=runs.max(1) {
            let sheet = &sheets[run % 2];
            let (seconds, answer) = edited.edit(sheet, self.cabinet);
            edits.push(seconds);
            let (seconds, right) = kept.keep(sheet);
            keeps.push(seconds);
            assert_eq!(answer, right, "the edit differs from the whole run");
            assert!(edited.output == kept.output, "other outputs");
            assert!(edited.costs == kept.costs, "other cost tables");
            assert!(edited.choices == kept.choices, "other choice tables");
        }
        Times {
            edit: median(edits),
            keep: median(keeps),
        }
    }
}
