//! Rules that a road can be planned without, to tell what they decide.

use second::framing::FRAMING;

/// What holds of streams and cabinets beside the amounts of a road.
#[derive(Clone, Copy, Debug, PartialEq, Eq)]
pub struct Rules {
    /// What the framing of a stream takes of a line.
    pub framing: u64,
    /// No service may be on a joint.
    pub joints: bool,
}

impl Rules {
    /// The rules of the papers.
    pub const ALL: Rules = Rules {
        framing: FRAMING,
        joints: true,
    };

    /// The same if framing took no line.
    pub const UNFRAMED: Rules = Rules {
        framing: 0,
        ..Rules::ALL
    };

    /// The same if a joint were a cabinet like any other.
    pub const WITHOUT_JOINTS: Rules = Rules {
        joints: false,
        ..Rules::ALL
    };
}
