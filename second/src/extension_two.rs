//! The TACK extension of edition two: reader, parsed form and writer.
//!
//! "The layout of document 002: a two-byte length of 166 or 332, one or two
//! tacks, one flags byte." Nothing follows.

use crate::answer::{alert_of_two, EXTENSION_MALFORMED, READ_OR_WRITTEN, WRITER_BAD_PART};
use crate::extension::{put, Reading, Span, Tack, Writing, TACK_LENGTH};

const TWO_TACKS_LENGTH: usize = 2 * TACK_LENGTH;
/// Where the tacks stand, after their length.
const TACKS_AT: usize = 2;

/// "Bit 0 enables the first tack, bit 1 the second."
const FIRST_ENABLED: u8 = 1;
const SECOND_ENABLED: u8 = 2;

/// A tack with its bit of the flags.
#[derive(Debug, Clone, PartialEq, Eq)]
pub struct ShownTack {
    pub tack: Tack,
    pub enabled: bool,
}

/// The extension taken apart, its tacks still the caller's bytes.
struct Parts<'a> {
    tacks: &'a [u8],
    flags: u8,
}

impl<'a> Parts<'a> {
    fn split(bytes: &'a [u8]) -> Option<Parts<'a>> {
        let (length, rest) = bytes.split_first_chunk()?;
        let length = usize::from(u16::from_be_bytes(*length));
        let (tacks, rest) = rest.split_at_checked(length)?;
        let [flags] = *rest else {
            return None;
        };
        let parts = Parts { tacks, flags };
        parts.are_allowed().then_some(parts)
    }

    /// The one rule for the length and the flags, whether read or written:
    /// "another bit set, or bit 1 with one tack, is 16".
    fn are_allowed(&self) -> bool {
        let known_flags = match self.tacks.len() {
            TACK_LENGTH => FIRST_ENABLED,
            TWO_TACKS_LENGTH => FIRST_ENABLED | SECOND_ENABLED,
            _ => return false,
        };
        self.flags & !known_flags == 0
    }

    /// The allowed parts joined, or nothing. The length then fits its field.
    fn join(&self) -> Option<Vec<u8>> {
        if !self.are_allowed() {
            return None;
        }
        let length = u16::try_from(self.tacks.len()).ok()?;
        let mut bytes = length.to_be_bytes().to_vec();
        bytes.extend_from_slice(self.tacks);
        bytes.push(self.flags);
        Some(bytes)
    }

    fn shown_tacks(&self) -> Vec<ShownTack> {
        let tacks = self.tacks.chunks_exact(TACK_LENGTH);
        let tacks = tacks.filter_map(Tack::parse);
        let bits = [FIRST_ENABLED, SECOND_ENABLED];
        let shown = |(tack, bit)| ShownTack {
            tack,
            enabled: self.flags & bit != 0,
        };
        tacks.zip(bits).map(shown).collect()
    }
}

/// The one or two tacks in order, or nothing if the bytes are malformed.
pub fn parse(bytes: &[u8]) -> Option<Vec<ShownTack>> {
    Parts::split(bytes).map(|parts| parts.shown_tacks())
}

pub fn read(bytes: &[u8]) -> Reading {
    let (number, flags) = match Parts::split(bytes) {
        Some(parts) => (READ_OR_WRITTEN, parts.flags),
        None => (EXTENSION_MALFORMED, 0),
    };
    Reading {
        number,
        alert: alert_of_two(number),
        activation: flags,
    }
}

/// Where the first or the second tack stands in the bytes.
pub fn tack_span(bytes: &[u8], second: bool) -> Span {
    let tacks = Parts::split(bytes).map_or(&[][..], |parts| parts.tacks);
    let index = usize::from(second);
    let tack = tacks.chunks_exact(TACK_LENGTH).nth(index);
    Span::new(TACKS_AT + index * TACK_LENGTH, tack.unwrap_or(&[]))
}

/// Writes one or two tacks, which come as one part.
pub fn write(tacks: &[u8], flags: u8, out: &mut [u8]) -> Writing {
    match (Parts { tacks, flags }).join() {
        Some(bytes) => put(&bytes, out),
        None => Writing::new(WRITER_BAD_PART, 0),
    }
}
