//! What a keeping call leaves in the tables, by its definition: every placing of every set of
//! services on every part of the road is tried.

use crate::bars::Bars;
use crate::check::Loads;
use crate::path::{Paths, ancestors};
use crate::plan::{Answer, advance, plan};
use crate::read::read;
use crate::sheet::Sheet;
use crate::weigh::LARGEST_COST;

/// The entry of a set that cannot be placed.
pub const NONE: u64 = LARGEST_COST + 1;

/// The entries of both tables that are filled, 2^r for each cabinet.
#[derive(Clone, Debug, Default, PartialEq, Eq)]
pub struct Tables {
    pub costs: Vec<u64>,
    pub choices: Vec<u16>,
}

/// The answer of a keeping call for a sheet and the lengths of what is lent, and what the first
/// entries of the tables hold afterwards; nothing where the call writes nothing.
///
/// # Panics
///
/// As the planner does for roads with too many plans.
pub fn keep(bytes: &[u8], output: usize, costs: usize, choices: usize) -> (Answer, Tables) {
    let answer = plan(bytes, output, costs, choices);
    let tables = match (answer.refusal, read(bytes)) {
        (0 | 12, Ok(sheet)) => tables(&sheet),
        _ => Tables::default(),
    };
    (answer, tables)
}

/// The tables of an accepted sheet.
pub fn tables(sheet: &Sheet) -> Tables {
    let road = Road::new(sheet);
    let all = 0..sheet.cabinets.len();
    Tables {
        costs: all.clone().flat_map(|p| road.costs(p)).collect(),
        choices: all.flat_map(|c| road.choices(c)).collect(),
    }
}

/// No more placings than this are tried for the tables: three parts for each cabinet, of no more
/// cabinets than the road has.
pub fn placings(sheet: &Sheet) -> u64 {
    let s = sheet.cabinets.len() as u64;
    let r = sheet.services.len() as u32;
    (s + 1).saturating_pow(r).saturating_mul(3 * s)
}

/// A cabinet, its children up to some number, and all cabinets under those.
struct Part {
    top: usize,
    cabinets: Vec<usize>,
}

impl Part {
    fn new(sheet: &Sheet, top: usize, last: usize) -> Part {
        let joined =
            |&c: &usize| c != 0 && c <= last && usize::from(sheet.cabinets[c].parent) == top;
        let inside = |&v: &usize| v == top || ancestors(sheet, v).iter().any(joined);
        Part {
            top,
            cabinets: (0..sheet.cabinets.len()).filter(inside).collect(),
        }
    }
}

/// Where each service is; nowhere where it is not in the set that is placed.
type Places = Vec<Option<usize>>;

/// A road with what is looked up often.
struct Road<'a> {
    sheet: &'a Sheet,
    bars: Bars,
    paths: Paths,
}

impl Road<'_> {
    fn new(sheet: &Sheet) -> Road<'_> {
        Road {
            sheet,
            bars: Bars::new(sheet),
            paths: Paths::new(sheet),
        }
    }

    /// All sets of services, bit i for service i.
    fn sets(&self) -> std::ops::Range<usize> {
        0..1 << self.sheet.services.len()
    }

    /// The cost row of p: the least charge of each set on p and all under it.
    fn costs(&self, p: usize) -> Vec<u64> {
        let whole = Part::new(self.sheet, p, self.sheet.cabinets.len());
        let least = |set| self.first(&whole, set).map_or(NONE, |(charge, _)| charge);
        self.sets().map(least).collect()
    }

    /// The choice row of c: for the empty set the count of splits, for any other what stays on the
    /// part before c when the set is placed on that part, c and all under c.
    fn choices(&self, c: usize) -> Vec<u16> {
        if c == 0 {
            return vec![0; self.sets().len()];
        }
        let p = usize::from(self.sheet.cabinets[c].parent);
        let before = Part::new(self.sheet, p, c - 1);
        let joined = Part::new(self.sheet, p, c);
        let stays = |set| match set {
            0 => self.splits(&before),
            _ => {
                let placed = self.first(&joined, set);
                placed.map_or(0, |(_, places)| held(&before, &places))
            }
        };
        self.sets().map(stays).collect()
    }

    /// How many pairs of sets there are, one in the other, of which the inner can be placed here.
    fn splits(&self, part: &Part) -> u16 {
        let placed = self.sets().filter(|&set| self.first(part, set).is_some());
        let r = self.sheet.services.len() as u32;
        // Each service outside the inner set is in the outer or not.
        placed.map(|set| 1 << (r - set.count_ones())).sum()
    }

    /// The least charge of a set on a part, and the first placing of that charge: the lowest
    /// cabinet for the first service of the set, then for the next.
    fn first(&self, part: &Part, set: usize) -> Option<(u64, Places)> {
        let r = self.sheet.services.len();
        let placed: Vec<usize> = (0..r).filter(|i| set >> i & 1 == 1).collect();
        let mut choice = vec![0; placed.len()];
        let mut places = vec![None; r];
        let mut best: Option<(u64, Places)> = None;
        loop {
            for (&service, &k) in placed.iter().zip(&choice) {
                places[service] = Some(part.cabinets[usize::from(k)]);
            }
            if let Some(charge) = self.charge(part, &places)
                && best.as_ref().is_none_or(|(least, _)| charge < *least)
            {
                best = Some((charge, places.clone()));
            }
            if !advance(&mut choice, part.cabinets.len()) {
                return best;
            }
        }
    }

    /// What a placing costs on the cabinets of the part and the links between them, if it is within
    /// their capacities and uses no barred pair and no joint. The end of a stream whose service is
    /// not placed counts as being on the top.
    fn charge(&self, part: &Part, places: &Places) -> Option<u64> {
        let mut loads = Loads::new(self.sheet.cabinets.len());
        for (service, &cabinet) in places.iter().enumerate() {
            let Some(cabinet) = cabinet else { continue };
            if self.bars.bar(service, cabinet) {
                return None;
            }
            loads.place(cabinet, self.sheet.services[service]);
        }
        for stream in &self.sheet.streams {
            let end = |service: u16| places[usize::from(service)].unwrap_or(part.top);
            let steps = self.paths.between(end(stream.from), end(stream.to));
            loads.run(steps, stream.demand);
        }
        let of = |&v: &usize| self.cabinet_charge(&loads, v, v != part.top);
        part.cabinets.iter().map(of).sum()
    }

    /// What a cabinet charges, and its link if that is within the part.
    fn cabinet_charge(&self, loads: &Loads, v: usize, linked: bool) -> Option<u64> {
        let cabinet = &self.sheet.cabinets[v];
        let fits = loads.holds(self.sheet, v) && (!linked || loads.carries(self.sheet, v));
        let link = loads.up[v].demand * u64::from(cabinet.up_price)
            + loads.down[v].demand * u64::from(cabinet.down_price);
        let own = loads.cabinets[v] * u64::from(cabinet.price);
        fits.then_some(own + if linked { link } else { 0 })
    }
}

/// The services that are placed on the part, as a set.
fn held(part: &Part, places: &Places) -> u16 {
    let here = |place: &Option<usize>| place.is_some_and(|v| part.cabinets.contains(&v));
    let bits = places.iter().enumerate();
    bits.map(|(i, place)| u16::from(here(place)) << i).sum()
}
