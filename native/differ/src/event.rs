//! What is told apart about joints, about edits and about calls on spans.

use crate::joint::Joint;
use crate::memory::Call;
use crate::spot::Spot;
use crate::turn::Turn;
use second::random::breach::Breach;

/// What came up with joints, among edits, among calls on spans, and in lists of calls on two spans.
#[derive(Clone, Copy, Debug, PartialEq, Eq, PartialOrd, Ord)]
pub enum Event {
    /// An edit with a plan.
    Plan,
    /// An edit with 12.
    NoPlan,
    /// An edit with a plan after one with 12.
    PlanAgain,
    /// An edit of the root, where there are other cabinets.
    Root,
    /// An edit of a cabinet without children, but of no root.
    Leaf,
    /// An edit of any other cabinet.
    Between,
    /// 14 on a road that has a plan.
    Number,
    /// 14 on a road that gives 12.
    NumberBefore12,
    /// 10 where 14 applies too.
    OutputBefore14,
    /// 11 where 14 applies too.
    TablesBefore14,
    /// A refusal of the reader where 14 applies too.
    SheetBefore14,
    /// A refused sheet between two edits.
    SheetBetween,
    /// An edit that breaks the rule so, and whose tables are others than a keeping call leaves.
    Broken(Breach),
    /// 23.
    Unlike,
    /// An edit that breaks the rule, with a plan.
    BrokenPlan,
    /// An edit that breaks the rule, with 12.
    BrokenNoPlan,
    /// This call on a span that lies so.
    Span(Call, Spot),
    /// This in a list of calls on two spans of the same tables.
    Sharing(Turn),
    /// This with joints.
    Joint(Joint),
}

impl Event {
    /// All that must come up.
    pub fn all() -> Vec<Event> {
        let mut all = vec![
            Event::Plan,
            Event::NoPlan,
            Event::PlanAgain,
            Event::Root,
            Event::Leaf,
            Event::Between,
            Event::Number,
            Event::NumberBefore12,
            Event::OutputBefore14,
            Event::TablesBefore14,
            Event::SheetBefore14,
            Event::SheetBetween,
            Event::Unlike,
            Event::BrokenPlan,
            Event::BrokenNoPlan,
        ];
        all.extend(Breach::ALL.map(Event::Broken));
        for call in Call::ALL {
            let spots = Spot::ALL.into_iter().filter(|spot| spot.is_of(call));
            all.extend(spots.map(|spot| Event::Span(call, spot)));
        }
        all.extend(Turn::ALL.map(Event::Sharing));
        all.extend(Joint::ALL.map(Event::Joint));
        all
    }
}
