//! The editions of the draft.

use std::fmt;

/// The edition of the draft that a server follows, and that a table is of.
#[derive(Debug, Clone, Copy, PartialEq, Eq, Hash)]
pub enum Edition {
    /// One tack at most, and break signatures; a name has one pin.
    One,
    /// One or two tacks; a name has up to two pins, with different keys.
    Two,
}

impl fmt::Display for Edition {
    fn fmt(&self, f: &mut fmt::Formatter<'_>) -> fmt::Result {
        f.write_str(match self {
            Edition::One => "edition one",
            Edition::Two => "edition two",
        })
    }
}
