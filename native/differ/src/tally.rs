//! Counts of cases by kind, of calls by answer, of plans that were not the only cheapest, of what
//! framing decided, of the features of bills, of what came up with joints, among edits and calls on
//! spans, and of the forms of sheets that were copied.

use crate::{Event, Joint};
use second::feature::Feature;
use second::form::{Form, forms};
use second::random::Case;
use second::random::case::Origin;
use std::collections::BTreeMap;
use std::fmt::{Display, Formatter, Result};

#[derive(Clone, Default)]
pub struct Tally {
    cases: usize,
    kinds: BTreeMap<String, usize>,
    answers: BTreeMap<&'static str, BTreeMap<u64, usize>>,
    tied: usize,
    tied_large: usize,
    framed_plans: usize,
    framed_roads: usize,
    features: BTreeMap<Feature, usize>,
    lists: usize,
    sharing_lists: usize,
    events: BTreeMap<Event, usize>,
    forms: BTreeMap<Form, usize>,
}

impl Tally {
    pub fn case(&mut self, case: &Case) {
        self.cases += 1;
        let kind = match case.origin {
            Origin::Directed(_) => "Directed".to_string(),
            origin => format!("{origin:?}"),
        };
        *self.kinds.entry(kind).or_default() += 1;
    }

    pub fn answer(&mut self, call: &'static str, answer: u64) {
        let answers = self.answers.entry(call).or_default();
        *answers.entry(answer).or_default() += 1;
    }

    /// Notes that other valid plans cost as much as one compared, on a road whose every plan was
    /// tried or on a large one.
    pub fn tie(&mut self, large: bool) {
        match large {
            true => self.tied_large += 1,
            false => self.tied += 1,
        }
    }

    /// How many plans compared had others of the same cost, on roads whose every plan was tried.
    pub fn tied(&self) -> usize {
        self.tied
    }

    /// How many are known to have had them on large roads.
    pub fn tied_large(&self) -> usize {
        self.tied_large
    }

    /// Notes a plan that the check refused and that would be valid if framing took no line.
    pub fn framed_plan(&mut self) {
        self.framed_plans += 1;
    }

    /// Notes a road whose least cost, refusal or count would be another if framing took no line.
    pub fn framed_road(&mut self) {
        self.framed_roads += 1;
    }

    /// How many plans were refused for framing alone.
    pub fn framed_plans(&self) -> usize {
        self.framed_plans
    }

    /// How many times the planner's answer was one that framing decided.
    pub fn framed_roads(&self) -> usize {
        self.framed_roads
    }

    /// Notes what was told apart about a bill that was compared.
    pub fn bill(&mut self, features: &[Feature]) {
        for &feature in features {
            *self.features.entry(feature).or_default() += 1;
        }
    }

    /// How many bills compared had this feature.
    pub fn billed(&self, feature: Feature) -> usize {
        self.features.get(&feature).copied().unwrap_or(0)
    }

    /// Notes a list of edits.
    pub fn list(&mut self) {
        self.lists += 1;
    }

    /// How many lists of edits there were.
    pub fn lists(&self) -> usize {
        self.lists
    }

    /// Notes a list of calls on two spans.
    pub fn sharing_list(&mut self) {
        self.sharing_lists += 1;
    }

    /// How many lists of calls on two spans there were.
    pub fn sharing_lists(&self) -> usize {
        self.sharing_lists
    }

    /// Notes what came up with joints, among edits or calls on spans.
    pub fn event(&mut self, event: Event) {
        *self.events.entry(event).or_default() += 1;
    }

    /// Notes what came up with joints.
    pub fn joints(&mut self, joints: &[Joint]) {
        for &joint in joints {
            self.event(Event::Joint(joint));
        }
    }

    /// How often this came up.
    pub fn met(&self, event: Event) -> usize {
        self.events.get(&event).copied().unwrap_or(0)
    }

    /// Notes the form of a sheet whose tidy copy was compared.
    pub fn forms(&mut self, sheet: &[u8]) {
        for form in forms(sheet) {
            *self.forms.entry(form).or_default() += 1;
        }
    }

    /// How many sheets of this form were copied.
    pub fn copied(&self, form: Form) -> usize {
        self.forms.get(&form).copied().unwrap_or(0)
    }

    pub fn cases(&self) -> usize {
        self.cases
    }

    /// How often a call gave an answer.
    pub fn times(&self, call: &str, answer: u64) -> usize {
        let answers = self.answers.get(call);
        answers.and_then(|a| a.get(&answer)).copied().unwrap_or(0)
    }
}

impl Display for Tally {
    fn fmt(&self, f: &mut Formatter<'_>) -> Result {
        writeln!(f, "cases by kind:")?;
        for (kind, times) in &self.kinds {
            writeln!(f, "{times:9} {kind}")?;
        }
        for (call, answers) in &self.answers {
            writeln!(f, "{call} by answer:")?;
            for (answer, times) in answers {
                writeln!(f, "{times:9} {answer}")?;
            }
        }
        writeln!(f, "plans of which others cost as much:")?;
        writeln!(f, "{:9} on roads whose every plan was tried", self.tied)?;
        writeln!(f, "{:9} on large roads, or more", self.tied_large)?;
        writeln!(f, "decided by framing:")?;
        writeln!(f, "{:9} plans refused", self.framed_plans)?;
        writeln!(f, "{:9} roads planned or refused", self.framed_roads)?;
        writeln!(f, "bills, by feature:")?;
        for (feature, times) in &self.features {
            writeln!(f, "{times:9} {feature:?}")?;
        }
        writeln!(
            f,
            "lists of edits, calls on spans, and what came up there and with joints:"
        )?;
        writeln!(f, "{:9} lists of edits", self.lists)?;
        writeln!(f, "{:9} lists of calls on two spans", self.sharing_lists)?;
        for (event, times) in &self.events {
            writeln!(f, "{times:9} {event:?}")?;
        }
        writeln!(f, "sheets copied, by form:")?;
        for (form, times) in &self.forms {
            writeln!(f, "{times:9} {form:?}")?;
        }
        Ok(())
    }
}
