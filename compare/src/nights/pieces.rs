//! A night in small irregular pieces, as a slow pipe brings it.

use crate::random::Random;
use crate::record::LONGEST_CALL;

/// No night is fed in more pieces than about twice as many.
const MOST: usize = 3_000;

/// Pieces of up to a length that is drawn for the whole night; some end within a field's length, some hold several calls.
pub fn irregular<'a>(night: &'a [u8], random: &mut Random) -> Vec<&'a [u8]> {
    let longest = *random.pick(&[2, 7, 60, 600, 6_000]);
    let longest = longest.max(night.len() / MOST);
    let mut pieces = Vec::new();
    let mut rest = night;
    while !rest.is_empty() {
        let length = 1 + random.below(longest.min(rest.len()));
        let (piece, behind) = rest.split_at(length);
        pieces.push(piece);
        rest = behind;
    }
    pieces
}

/// Pieces of a night of the longest calls; each ends up to ten bytes before the end of a call.
pub fn ends_late<'a>(night: &'a [u8], random: &mut Random) -> Vec<&'a [u8]> {
    let mut pieces = Vec::new();
    let mut start = 0;
    for end in (LONGEST_CALL..=night.len()).step_by(LONGEST_CALL) {
        let late = end - 1 - random.below(10);
        pieces.push(&night[start..late]);
        start = late;
    }
    pieces.push(&night[start..]);
    pieces
}
