//! What must have come up among the cases written down and among enough random ones; a comparison
//! without it proves little.

use crate::Options;
use differ::{Event, Tally};
use second::feature::Feature;
use second::form::Form;

/// So many random cases must have among them plans of which others cost as much, plans and roads
/// that framing decides, plans, roads and edits of every kind with joints, edits of every kind,
/// calls on spans of every kind, alone and on two spans by turns, every kind of answer of the
/// writer, and sheets of every form.
const ENOUGH_CASES: usize = 1000;
/// So many must have among them bills with every feature that chance gives; few roads have loads of
/// about whole blocks.
const ENOUGH_BILLS: usize = 2000;
/// So many large roads must have among them some with such plans.
const ENOUGH_LARGE: usize = 40;

/// The kinds of answers of the writer: a copy, 21, and refusals handed on from the reader.
const TIDY: [(&str, &[u64]); 3] = [
    ("was copied", &[0]),
    ("got 21 for its copy", &[21]),
    ("was refused a copy", &[1, 2, 3, 4, 5, 6, 7, 8, 9, 18, 19]),
];

/// What the cases written down or the random ones did not show, told by the tallies before and
/// after the random ones.
pub fn missing(options: &Options, before: &Tally, after: &Tally) -> Option<String> {
    if let Some(feature) = unbilled(&Tally::default(), before, |_| true) {
        return Some(format!("no bill written down has the feature {feature:?}"));
    }
    if options.large >= ENOUGH_LARGE && after.tied_large() == before.tied_large() {
        return Some("no large road had two cheapest plans".to_string());
    }
    if options.cases < ENOUGH_CASES {
        return None;
    }
    if after.tied() == before.tied() {
        return Some("no random road had two cheapest plans".to_string());
    }
    if after.framed_plans() == before.framed_plans() {
        return Some("no random plan was refused for framing alone".to_string());
    }
    if after.framed_roads() == before.framed_roads() {
        return Some("no random road had an answer that framing decides".to_string());
    }
    if let Some(event) = unmet(before, after) {
        return Some(format!(
            "among random plans, roads, edits and calls on spans there was no {event:?}"
        ));
    }
    if options.cases >= ENOUGH_BILLS
        && let Some(feature) = unbilled(before, after, Feature::comes_by_chance)
    {
        return Some(format!("no random bill had the feature {feature:?}"));
    }
    copies(before, after)
}

/// The first that did not come up with joints or among edits and calls on spans between two
/// tallies.
fn unmet(before: &Tally, after: &Tally) -> Option<Event> {
    let mut all = Event::all().into_iter();
    all.find(|&event| before.met(event) == after.met(event))
}

/// The first of some features that no bill had between two tallies.
fn unbilled(before: &Tally, after: &Tally, some: impl Fn(Feature) -> bool) -> Option<Feature> {
    let mut all = Feature::all().into_iter().filter(|&feature| some(feature));
    all.find(|&feature| before.billed(feature) == after.billed(feature))
}

/// What the copies of random sheets did not show.
fn copies(before: &Tally, after: &Tally) -> Option<String> {
    let times = |tally: &Tally, answers: &[u64]| -> usize {
        answers
            .iter()
            .map(|&answer| tally.times("tidy", answer))
            .sum()
    };
    let mut kinds = TIDY.iter();
    if let Some((kind, _)) = kinds.find(|(_, kind)| times(before, kind) == times(after, kind)) {
        return Some(format!("no random sheet {kind}"));
    }
    let mut forms = Form::ALL.into_iter();
    let form = forms.find(|&form| before.copied(form) == after.copied(form))?;
    Some(format!(
        "no random sheet that was copied had the form {form:?}"
    ))
}

#[cfg(test)]
mod tests {
    use super::*;
    use second::copies;

    /// A tally after bills with every feature.
    fn written_down() -> Tally {
        let mut tally = Tally::default();
        tally.bill(&Feature::all());
        tally
    }

    /// Notes that these came up.
    fn note(tally: &mut Tally, events: &[Event]) {
        for &event in events {
            tally.event(event);
        }
    }

    /// The same after ties, what framing decides, joints, edits and calls on spans of every kind, more
    /// of these bills, these answers of the writer, and the copies of these sheets.
    fn tally(features: &[Feature], answers: &[u64], sheets: &[&str]) -> Tally {
        let mut tally = written_down();
        tally.tie(false);
        tally.tie(true);
        tally.framed_plan();
        tally.framed_road();
        note(&mut tally, &Event::all());
        tally.bill(features);
        for &answer in answers {
            tally.answer("tidy", answer);
        }
        for copied in copies::all() {
            if sheets.contains(&copied.name) {
                tally.forms(&copied.sheet);
            }
        }
        tally
    }

    /// Sheets that have every form together.
    const SHEETS: [&str; 3] = ["M as it is", "pairs twice", "none at all"];

    fn since_written_down(after: &Tally) -> Option<String> {
        missing(&Options::default(), &written_down(), after)
    }

    #[test]
    fn nothing_is_missing() {
        let after = tally(&Feature::all(), &[0, 21, 19], &SHEETS);
        assert_eq!(since_written_down(&after), None);
        let stale = missing(&Options::default(), &after, &after);
        assert!(stale.is_some());
    }

    #[test]
    fn ties() {
        let after = written_down();
        let mut options = Options::default();
        let missed = |options: &Options| missing(options, &written_down(), &after);
        assert!(missed(&options).is_some_and(|what| what.contains("large")));
        options.large = 39;
        assert!(missed(&options).is_some_and(|what| what.contains("random road")));
        options.cases = 999;
        assert_eq!(missed(&options), None);
    }

    #[test]
    fn framing() {
        let mut after = written_down();
        after.tie(false);
        after.tie(true);
        let missed = |after: &Tally| since_written_down(after).unwrap_or_default();
        assert!(missed(&after).contains("for framing alone"));
        after.framed_plan();
        assert!(missed(&after).contains("framing decides"));
        after.framed_road();
        assert!(missed(&after).contains("random plans"));
        let before = after.clone();
        after.tie(false);
        after.tie(true);
        let stale = |after: &Tally| missing(&Options::default(), &before, after);
        assert!(stale(&after).is_some_and(|what| what.contains("for framing alone")));
        after.framed_plan();
        assert!(stale(&after).is_some_and(|what| what.contains("framing decides")));
    }

    /// Each event is asked for by itself, and only of enough random cases.
    #[test]
    fn events() {
        for left_out in Event::all() {
            let mut others = Event::all();
            others.retain(|&event| event != left_out);
            let mut after = written_down();
            after.tie(false);
            after.tie(true);
            after.framed_plan();
            after.framed_road();
            note(&mut after, &others);
            let missed = since_written_down(&after).unwrap_or_default();
            assert!(missed.contains(&format!("{left_out:?}")), "{missed}");
            note(&mut after, &[left_out]);
            let missed = since_written_down(&after).unwrap_or_default();
            assert!(missed.contains("random bill"), "{missed}");
            let stale = missing(&Options::default(), &after, &after);
            assert!(stale.is_some_and(|what| !what.contains("random plans")));
        }
    }

    /// All features but one.
    fn without(left_out: Feature) -> Vec<Feature> {
        let mut features = Feature::all();
        features.retain(|&feature| feature != left_out);
        features
    }

    #[test]
    fn features_of_random_bills() {
        for feature in Feature::all() {
            let after = tally(&without(feature), &[0, 21, 19], &SHEETS);
            let missed = since_written_down(&after);
            assert_eq!(missed.is_some(), feature.comes_by_chance(), "{feature:?}");
            let few = Options {
                cases: 1999,
                ..Options::default()
            };
            assert_eq!(missing(&few, &written_down(), &after), None);
        }
    }

    /// Every feature is asked of the cases written down, however few the random ones are.
    #[test]
    fn features_of_bills_written_down() {
        let options = Options {
            cases: 0,
            large: 0,
            ..Options::default()
        };
        for feature in Feature::all() {
            let mut before = Tally::default();
            before.bill(&without(feature));
            let missed = missing(&options, &before, &before);
            assert!(missed.is_some_and(|what| what.contains("written down")));
        }
        assert_eq!(missing(&options, &written_down(), &written_down()), None);
    }

    #[test]
    fn answers_and_forms() {
        let all = Feature::all();
        for answers in [&[21, 1][..], &[0, 1], &[0, 21]] {
            assert!(since_written_down(&tally(&all, answers, &SHEETS)).is_some());
        }
        for left_out in SHEETS {
            let others = SHEETS.map(|name| if name == left_out { "" } else { name });
            let after = tally(&all, &[0, 21, 3], &others);
            assert!(since_written_down(&after).is_some(), "without {left_out}");
        }
    }
}
