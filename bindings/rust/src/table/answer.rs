//! What a call that was not refused is answered with.

use std::fmt;

/// What the table says of a connection.
///
/// A gateway lets a connection through for the verdicts that it names, and closes it for every other.
#[derive(Debug, Clone, Copy, PartialEq, Eq, Hash)]
#[non_exhaustive]
pub enum Verdict {
    /// 0: the name has no active pin. In edition two it had none when the verdict fell, and the call may have activated one.
    Unpinned = 0,
    /// 1: the name has an active pin, in edition two perhaps a second active one, and the server showed the key of each.
    Confirmed = 1,
    /// 2: the name has an active pin whose key the server did not show.
    Contradicted = 2,
}

impl Verdict {
    /// The verdict's number.
    pub fn number(self) -> u8 {
        self as u8
    }
}

impl fmt::Display for Verdict {
    fn fmt(&self, f: &mut fmt::Formatter<'_>) -> fmt::Result {
        f.write_str(match self {
            Verdict::Unpinned => "unpinned",
            Verdict::Confirmed => "confirmed",
            Verdict::Contradicted => "contradicted",
        })
    }
}

/// A verdict, its alert, and whether the table had room.
#[derive(Debug, Clone, Copy, PartialEq, Eq, Hash)]
#[non_exhaustive]
pub struct Judgement {
    /// What the table says of the connection.
    pub verdict: Verdict,
    /// The TLS alert that goes with the verdict: 49, access_denied, for a contradicted connection, or 0 for none.
    pub alert: u8,
    /// A pin was due and the table had no slot for its name or its key. It was not made, and the verdict stands all the same:
    /// a full table refuses no connection.
    pub no_room: bool,
}

/// Whether a deletion found its name.
#[derive(Debug, Clone, Copy, PartialEq, Eq, Hash)]
#[non_exhaustive]
pub enum Deletion {
    /// 3: the name's record is gone, in edition two both are, and so is each key if no name is left on it.
    Deleted = 3,
    /// 4: the name had no record.
    NotRecorded = 4,
}

impl Deletion {
    /// The answer's number.
    pub fn number(self) -> u8 {
        self as u8
    }
}

/// A name's record, and the floor of the key that it is pinned to.
#[derive(Debug, Clone, Copy, PartialEq, Eq, Hash)]
#[non_exhaustive]
pub struct Inspection {
    /// The highest min_generation seen from the key; generations below it are revoked.
    pub floor: u8,
    /// When the record was made, in minutes since 1970.
    pub initial: u32,
    /// When the pin ends or ended, in minutes since 1970; none for a pin that was never activated.
    pub end: Option<u32>,
    /// The end minus the given clock: 0 at the end, where the pin is no longer active, and negative after it.
    pub minutes_left: Option<i64>,
}
