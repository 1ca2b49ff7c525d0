//! The two editions of the draft. A table is of one of them.

#[derive(Debug, Clone, Copy, PartialEq, Eq)]
pub enum Edition {
    One,
    Two,
}

impl Edition {
    /// "Starting takes a yes for edition two."
    pub fn of_answer(edition_two: bool) -> Edition {
        if edition_two {
            Edition::Two
        } else {
            Edition::One
        }
    }

    /// The edition of a table with this byte 4; nothing if it is neither 0 nor 1.
    pub fn from_byte(byte: u8) -> Option<Edition> {
        match byte {
            0 => Some(Edition::One),
            1 => Some(Edition::Two),
            _ => None,
        }
    }

    pub fn to_byte(self) -> u8 {
        match self {
            Edition::One => 0,
            Edition::Two => 1,
        }
    }
}
