//! What is told apart in lists of calls on two spans of the same tables.

use second::random::sharing::Spans;

/// What came up in such a list, or how its spans lie.
#[derive(Clone, Copy, Debug, PartialEq, Eq, PartialOrd, Ord)]
pub enum Turn {
    /// The span of the case's road lies before the other's.
    Before,
    /// It lies behind it.
    Behind,
    /// The spans touch.
    Touching,
    /// There are entries between them.
    Apart,
    /// One of them ends where the shorter table does.
    AtEnd,
    /// One is longer than its road needs.
    Longer,
    /// An edit by its rule, since whose road's last call the other road was planned.
    AfterPlan,
    /// The same with a keeping call of the other road.
    AfterKeep,
    /// The same with an edit of the other road.
    AfterEdit,
    /// The same with a refused call of either road.
    AfterRefused,
    /// An edit by its rule, with a plan.
    Plan,
    /// An edit by its rule, with 12.
    NoPlan,
    /// An edit by its rule that makes a joint of a cabinet.
    MadeJoint,
    /// An edit by its rule that makes a cabinet of a joint.
    MadeCabinet,
    /// A planning call on a span that held what edits need.
    Cleared,
    /// 24 on one of the spans moved past the tables.
    Past,
}

impl Turn {
    pub const ALL: [Turn; 16] = [
        Turn::Before,
        Turn::Behind,
        Turn::Touching,
        Turn::Apart,
        Turn::AtEnd,
        Turn::Longer,
        Turn::AfterPlan,
        Turn::AfterKeep,
        Turn::AfterEdit,
        Turn::AfterRefused,
        Turn::Plan,
        Turn::NoPlan,
        Turn::MadeJoint,
        Turn::MadeCabinet,
        Turn::Cleared,
        Turn::Past,
    ];

    /// What is told apart about how two spans lie, for roads that need so many entries.
    pub fn of(drawn: &Spans, entries: [usize; 2]) -> Vec<Turn> {
        let [one, two] = drawn.spans;
        let (lower, upper) = match one.first < two.first {
            true => (one, two),
            false => (two, one),
        };
        let gap = upper.first - (lower.first + lower.number);
        let turns = [
            (Turn::Before, one == lower),
            (Turn::Behind, one == upper),
            (Turn::Touching, gap == 0),
            (Turn::Apart, gap > 0),
            (
                Turn::AtEnd,
                upper.first + upper.number == drawn.costs.min(drawn.choices),
            ),
            (
                Turn::Longer,
                one.number > entries[0] || two.number > entries[1],
            ),
        ];
        let holding = turns.into_iter().filter(|(_, holds)| *holds);
        holding.map(|(turn, _)| turn).collect()
    }
}
