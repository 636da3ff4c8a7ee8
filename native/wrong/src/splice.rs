//! What can be wrong about joints, one sentence each.

use crate::Fault;
use crate::sentences::sentences;

/// Which calls get something wrong about joints.
#[derive(Clone, Copy, Debug, PartialEq, Eq)]
pub enum Where {
    Check,
    /// All calls that plan.
    Plan,
    /// The check and all calls that plan.
    Both,
    Keep,
    Edit,
    Bill,
}

impl Where {
    const ALL: [Where; 6] = [
        Where::Check,
        Where::Plan,
        Where::Both,
        Where::Keep,
        Where::Edit,
        Where::Bill,
    ];

    /// The calls, as a sentence names them.
    fn name(self) -> &'static str {
        match self {
            Where::Check => "the check",
            Where::Plan => "the planner",
            Where::Both => "check and planner",
            Where::Keep => "the keeping call",
            Where::Edit => "the edit",
            Where::Bill => "the bill",
        }
    }
}

sentences! {
    /// What some calls get wrong about joints.
    Splice {}
    // Which cabinets are joints.
    Not "a joint takes services of demand 0"
    RootOnly "only the root can be a joint"
    RootNever "the root is never a joint"
    LeavesOnly "only a cabinet without others under it can be a joint"
    LeavesNever "a cabinet without others under it is never a joint"
    LastNever "the last cabinet is never a joint"
    ByPrice "a cabinet of price 0 is a joint, and one of capacity 0 is none"
    PricedNever "a cabinet of capacity 0 with a price is no joint"
    CapacityOne "a cabinet of capacity 1 is a joint too"
    ByUpCapacity "a cabinet of up capacity 0 is a joint, and one of capacity 0 is none"
    CutOffToo "a cabinet whose link carries nothing is a joint too"
    LinkedNever "a cabinet of capacity 0 whose link carries something is no joint"
    ByParent "a cabinet under a joint is one in its stead"
    ByNext "a cabinet before a joint is one in its stead"
    UnderToo "all cabinets under a joint are joints too"
    BarredNever "a cabinet of capacity 0 that something is barred from is no joint"
    // Which services they do not hold.
    QuietOnly "only services without streams are kept off joints"
    SendingOnly "only services with streams are kept off joints"
    FirstOnly "only service 0 is kept off joints"
    LastNot "the last service is not kept off joints"
    OneTaken "a joint takes one service of demand 0"
    SeveralTaken "a joint takes two services of demand 0 or more"
    NoneRefused "a joint is refused even without a service"
    // What else they do.
    Impassable "streams may not pass joints"
    // In the check: which number is given, in which order, and what with.
    Is14 "14 is given in place of 15"
    Is16 "16 is given in place of 15"
    Is20 "20 is given in place of 15"
    Before13 "15 is given before 13"
    Before14 "15 is given before 14"
    Before20 "15 is given before 20"
    After16 "15 is given after 16"
    WithCost "15 comes with the cost"
    // In the planner: what is counted.
    NotCounted "the count is reckoned as if there were no joints"
    CountOnly "only the count is reckoned with joints"
    // In the keeping call and in the edit: what the tables hold.
    KeptOpen "the tables are filled as if there were no joints"
    KeptShut "the row of a joint has no cost for any service, not even under it"
    KeptZero "the row of a joint is 0"
    KeptEmpty "the row of a joint has no cost for the empty set"
    Open "joints take services of demand 0"
    MadeNot "the cabinet that is edited is no joint, though its capacity is 0"
    BoxedNot "a joint without others under it stays one, whatever capacity it gets"
    AboveNot "above the cabinet that is edited there are no joints"
    // In the edit and in the bill: what is checked.
    Unchecked "a plan with a service of demand 0 on a joint is not refused"
}

impl Splice {
    /// These calls can get it wrong.
    fn is_of(self, place: Where) -> bool {
        use Splice::*;
        match self {
            Is14 | Is16 | Is20 | Before13 | Before14 | Before20 | After16 | WithCost => {
                place == Where::Check
            }
            NotCounted | CountOnly => place == Where::Plan,
            KeptOpen | KeptShut | KeptZero | KeptEmpty => place == Where::Keep,
            Open | MadeNot | BoxedNot | AboveNot => place == Where::Edit,
            Unchecked => matches!(place, Where::Edit | Where::Bill),
            _ => matches!(place, Where::Check | Where::Plan | Where::Both),
        }
    }
}

/// All faults of joints: each with all calls that can have it.
pub fn faults() -> impl Iterator<Item = Fault> {
    let places = Where::ALL.into_iter();
    places.flat_map(|place| {
        let all = Splice::SENTENCES.iter().map(|&(splice, _)| splice);
        let of_place = all.filter(move |splice| splice.is_of(place));
        of_place.map(move |splice| Fault::Joint(place, splice))
    })
}

/// The sentence of what some calls get wrong.
pub fn sentence(place: Where, splice: Splice) -> String {
    let mut sentences = Splice::SENTENCES.iter();
    let found = sentences.find(|(other, _)| *other == splice);
    let sentence = found.map_or("", |(_, sentence)| sentence);
    format!("joints in {}: {sentence}", place.name())
}
