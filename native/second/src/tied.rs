//! Roads with several cheapest plans, written down one by one with the first of them.

use crate::build::tight;
use crate::limits::{AMOUNT, NO_PARENT};
use crate::measured::m_records;
use crate::random::case::Origin;
use crate::random::{Case, Lent};
use crate::sheet::{Cabinet, Pair, Sheet, Stream};

/// A road, its least cost, and the first plan of that cost.
pub struct Tied {
    pub name: &'static str,
    pub sheet: Sheet,
    pub cost: u64,
    pub plan: Vec<u16>,
}

impl Tied {
    /// The road with its calls, to be compared.
    pub fn case(&self) -> Case {
        let entries = self.sheet.entries();
        Case {
            origin: Origin::Directed(self.name),
            sheet: tight(&self.sheet),
            plans: vec![self.plan.clone()],
            tariffs: vec![],
            lent: vec![Lent {
                output: self.sheet.services.len(),
                costs: entries,
                choices: entries,
            }],
        }
    }
}

/// Services of demand 1 on cabinets of price 1 with these parents and capacities; every link is
/// free and carries all that a sheet can name.
fn free(services: usize, cabinets: &[(u16, u16)]) -> Sheet {
    let cabinet = |&(parent, capacity): &(u16, u16)| match parent {
        NO_PARENT => Cabinet::from_words([NO_PARENT, capacity, 1, 0, 0, 0, 0]),
        _ => Cabinet::from_words([parent, capacity, 1, AMOUNT, 0, AMOUNT, 0]),
    };
    Sheet {
        services: vec![1; services],
        cabinets: cabinets.iter().map(cabinet).collect(),
        ..Sheet::default()
    }
}

/// The same under a root that holds nothing.
fn under_root(services: usize, cabinets: &[(u16, u16)]) -> Sheet {
    free(services, &[&[(NO_PARENT, 0)], cabinets].concat())
}

/// Bars a service from cabinets.
fn bar(sheet: &mut Sheet, service: u16, cabinets: &[u16]) {
    let pairs = cabinets.iter().map(|&c| Pair::from_words([service, c]));
    sheet.barred.extend(pairs);
}

/// Legs 1, 3 and 2, 4, of which 1 holds nothing: (2,3), (2,4), (3,2), (3,4), (4,2) and (4,3) tie.
fn two_legs() -> Sheet {
    under_root(2, &[(0, 0), (0, 1), (1, 1), (2, 1)])
}

/// Two services that must share a leg, 1 with its last cabinet or 2 with 3. Each cabinet holds one.
fn nests(last: u16) -> Sheet {
    let parent = |c| match c {
        3 => (2, 1),
        c if c == last => (1, 1),
        1 | 2 => (0, 1),
        _ => (0, 0),
    };
    let cabinets: Vec<(u16, u16)> = (1..=last).map(parent).collect();
    let mut sheet = under_root(2, &cabinets);
    sheet.streams = vec![Stream::from_words([0, 1, 1])];
    for c in [1, 2] {
        sheet.cabinets[c].up_capacity = 0;
        sheet.cabinets[c].down_capacity = 0;
    }
    sheet
}

/// Cabinet 1 could hold one of two services, but nothing can leave or enter it.
fn cut_off() -> Sheet {
    let mut sheet = under_root(2, &[(0, 1), (0, 1), (0, 2)]);
    sheet.streams = vec![Stream::from_words([0, 1, 1])];
    sheet.cabinets[1].up_capacity = 0;
    sheet.cabinets[1].down_capacity = 0;
    sheet
}

/// The last cabinets are the cheapest, and two of them cost the same.
fn cheaper_later() -> Sheet {
    let mut sheet = free(2, &[(NO_PARENT, 2), (0, 2), (0, 1), (2, 1)]);
    sheet.cabinets[0].price = 3;
    sheet.cabinets[1].price = 2;
    sheet
}

/// A service of demand 0 that is barred from 0 and 1, and one of demand 1.
fn idle_barred() -> Sheet {
    let mut sheet = free(2, &[(NO_PARENT, 1), (0, 1), (0, 1), (0, 1)]);
    sheet.services[0] = 0;
    bar(&mut sheet, 0, &[1, 0]);
    sheet
}

/// Half of the services on each of two cabinets.
fn halves(services: usize) -> Sheet {
    let half = services as u16 / 2;
    under_root(services, &[(0, half), (0, half)])
}

/// Service 0 may be on 1 or 4 only, and the other two share what is left of the legs 1, 3 and 2, 4.
fn barred_legs() -> Sheet {
    let mut sheet = under_root(3, &[(0, 1), (0, 1), (1, 1), (2, 1)]);
    bar(&mut sheet, 0, &[0, 2, 3]);
    bar(&mut sheet, 1, &[2]);
    sheet
}

/// All of them.
pub fn all() -> Vec<Tied> {
    let road = |name, sheet, cost, plan: &[u16]| Tied {
        name,
        sheet,
        cost,
        plan: plan.to_vec(),
    };
    let anywhere = free(3, &[(NO_PARENT, 9), (0, 9), (1, 9), (0, 9)]);
    let one_each = under_root(2, &[(0, 1), (0, 1)]);
    let chain = under_root(3, &[(0, 1), (1, 1), (2, 1)]);
    vec![
        road("M", m_records(), 15, &[0, 1]),
        road("all on the root", anywhere, 3, &[0, 0, 0]),
        road("one on each of two leaves", one_each, 2, &[1, 2]),
        road("one on each of a chain", chain, 3, &[1, 2, 3]),
        road("two legs", two_legs(), 2, &[2, 3]),
        road("two legs with bars", barred_legs(), 3, &[1, 3, 2]),
        road("leg 1, 4 or leg 2, 3", nests(4), 2, &[1, 4]),
        road("leg 1, 199 or leg 2, 3", nests(199), 2, &[1, 199]),
        road("a leaf that is cut off", cut_off(), 2, &[2, 3]),
        road("cheaper cabinets later", cheaper_later(), 2, &[2, 3]),
        road("demand 0, barred from 0", idle_barred(), 1, &[2, 0]),
        road("three and three", halves(6), 6, &[1, 1, 1, 2, 2, 2]),
        road(
            "five and five",
            halves(10),
            10,
            &[1, 1, 1, 1, 1, 2, 2, 2, 2, 2],
        ),
    ]
}
