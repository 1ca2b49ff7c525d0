//! The kinds of extensions of edition two, read and not written.

use crate::kind_counts::counted_kinds;

counted_kinds! {
    /// A well-formed extension, by its tacks and flags.
    WellFormed, "well-formed extensions of edition two";
    OneDisabled, "169 bytes, the tack disabled";
    OneEnabled, "169 bytes, the tack enabled";
    NoneEnabled, "335 bytes, no tack enabled";
    FirstEnabled, "335 bytes, the first tack enabled";
    SecondEnabled, "335 bytes, the second tack enabled";
    BothEnabled, "335 bytes, both tacks enabled";
}

counted_kinds! {
    /// A refusal to write, by its reason.
    NotWritten, "extensions of edition two that were not written";
    WrongLength, "a wrong length: 25";
    WrongFlags, "wrong flags: 25";
    SecondOfOne, "the second of one tack enabled: 25";
    OneByteShort, "an output too small by one byte: 26";
    NoOutput, "no output at all: 26";
}

impl WellFormed {
    /// By the length of the tacks, and the flags.
    pub fn of(length: usize, flags: u8) -> WellFormed {
        match (length, flags) {
            (166, 0) => WellFormed::OneDisabled,
            (166, _) => WellFormed::OneEnabled,
            (_, 0) => WellFormed::NoneEnabled,
            (_, 1) => WellFormed::FirstEnabled,
            (_, 2) => WellFormed::SecondEnabled,
            _ => WellFormed::BothEnabled,
        }
    }
}

impl NotWritten {
    /// By the writer's answer, the length of the tacks, the flags and the space of the output.
    pub fn of(number: u8, length: usize, flags: u8, space: usize) -> Option<NotWritten> {
        Some(match number {
            25 if ![166, 332].contains(&length) => NotWritten::WrongLength,
            25 if flags > 3 => NotWritten::WrongFlags,
            25 => NotWritten::SecondOfOne,
            26 if space + 1 == length + 3 => NotWritten::OneByteShort,
            26 if space == 0 => NotWritten::NoOutput,
            _ => return None,
        })
    }
}
