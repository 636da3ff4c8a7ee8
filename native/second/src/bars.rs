//! Which service is barred from which cabinet.

use crate::sheet::Sheet;

/// For each service and cabinet of a road, whether some pair bars the one from the other.
pub struct Bars {
    cabinets: usize,
    barred: Vec<bool>,
}

impl Bars {
    pub fn new(sheet: &Sheet) -> Bars {
        let cabinets = sheet.cabinets.len();
        let mut barred = vec![false; sheet.services.len() * cabinets];
        for pair in &sheet.barred {
            barred[usize::from(pair.service) * cabinets + usize::from(pair.cabinet)] = true;
        }
        Bars { cabinets, barred }
    }

    /// The service is barred from the cabinet.
    pub fn bar(&self, service: usize, cabinet: usize) -> bool {
        self.barred[service * self.cabinets + cabinet]
    }

    /// Some service of the plan is on a cabinet that it is barred from.
    pub fn forbid(&self, plan: &[u16]) -> bool {
        let mut places = plan.iter().enumerate();
        places.any(|(service, &cabinet)| self.bar(service, usize::from(cabinet)))
    }
}
