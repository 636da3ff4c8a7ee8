//! What can be wrong about spans in any of the calls that plan, one sentence each.

use crate::Fault;
use crate::sentences::sentences;
use differ::Call;

sentences! {
    /// What a call gets wrong about spans.
    Slip {}
    // Which spans are refused.
    Wraps "first entry and number of entries are added in 64 bits"
    Signed "the end is compared as a number with a sign"
    First32 "the first entry is taken in 32 bits"
    First16 "the first entry is taken in 16 bits"
    Number32 "the number of entries is taken in 32 bits"
    PastFree "24 is not tested"
    PastCostsOnly "24 is tested on the cost table only"
    PastChoicesOnly "24 is tested on the choice table only"
    PastLonger "24 is tested on the longer table only"
    PastFirst "24 is tested on the first entry only"
    PastNumber "24 is tested on the number of entries only"
    PastAtEnd "a span that ends where a table does is refused"
    PastByOne "a span that ends one entry past a table is accepted"
    PastEmpty "a span of no entry at a table's end is 24"
    ShortCosts "11 is measured on the cost table"
    ShortChoices "11 is measured on the choice table"
    ShortTables "11 is measured on the shorter table"
    ShortRest "11 is measured on what the tables have from the first entry on"
    ShortByOne "a span of one entry too few is accepted"
    ShortExact "a span of just enough entries is refused"
    // Which refusal comes first.
    BeforeReader "24 is given before the reader's refusals"
    Before10 "24 is given before 10"
    After11 "24 is given after 11"
    After14 "24 is given after 14"
    After12 "24 is given after 12"
    // What 24 comes with.
    Is11 "a span past a table is 11"
    Group "24 belongs to the plan writer"
    WithCost "24 comes with a cost"
    WithCount "24 comes with a count"
    AnswerKept "24 leaves the answer unwritten"
    TouchedIn24 "24 changes an entry of each table"
    OutputIn24 "24 clears the output"
    TouchedIn11 "11 changes an entry of each table"
    // Where the rows lie.
    FromStart "rows lie from the tables' start"
    CostsFromStart "rows of the cost table lie from its start"
    ChoicesFromStart "rows of the choice table lie from its start"
    ReadFromStart "kept rows are read from the tables' start"
    ReadChoicesFromStart "kept rows of the choice table are read from its start"
    From16 "rows lie from the first entry, which is taken in 16 bits there"
    WholeRows "rows start at a multiple of their length"
    FromEnd "rows lie at the end of the span"
    // What else is written.
    CostBefore "one entry of the costs before the span is cleared"
    ChoiceBefore "one entry of the choices before the span is cleared"
    CostPast "one entry of the costs past the rows in the span is cleared"
    ChoicePast "one entry of the choices past the rows in the span is cleared"
    CostBehind "one entry of the costs behind the span is cleared"
    ChoiceBehind "one entry of the choices behind the span is cleared"
    SpanCleared "all of the span past the rows is cleared"
    TablesCleared "all of the tables outside the span is cleared"
    TablesIn12 "12 clears all of the tables outside the span"
    // Calls without a span.
    WithoutLonger "a call without one takes the length of the longer table"
    WithoutCosts "a call without one takes the length of the cost table"
    WithoutChoices "a call without one takes the length of the choice table"
}

impl Slip {
    /// It can be made in this call.
    fn is_of(self, call: Call) -> bool {
        let edits = matches!(
            self,
            Slip::After14 | Slip::ReadFromStart | Slip::ReadChoicesFromStart
        );
        !edits || call == Call::Edit
    }
}

/// All faults of spans: each slip in each call in which it can be made.
pub fn faults() -> impl Iterator<Item = Fault> {
    let calls = Call::ALL.into_iter();
    calls.flat_map(|call| {
        let slips = Slip::SENTENCES.iter().map(|&(slip, _)| slip);
        let of_call = slips.filter(move |slip| slip.is_of(call));
        of_call.map(move |slip| Fault::Span(call, slip))
    })
}

/// The sentence of a slip in a call.
pub fn sentence(call: Call, slip: Slip) -> String {
    let name = match call {
        Call::Plan => "planner",
        Call::Keep => "keep",
        Call::Edit => "edit",
    };
    let mut sentences = Slip::SENTENCES.iter();
    let found = sentences.find(|(other, _)| *other == slip);
    let sentence = found.map_or("", |(_, sentence)| sentence);
    format!("spans of {name}: {sentence}")
}
