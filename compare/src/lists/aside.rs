//! Copies of a table that are damaged, mostly, or of another length.

use crate::area::{Area, LENGTH};
use crate::random::Random;

/// A copy of another length, or with a few bytes changed.
pub fn changed(area: &Area, random: &mut Random) -> Vec<u8> {
    let mut bytes = area.bytes.clone();
    if random.one_in(3) {
        let any = random.below(2 * LENGTH);
        bytes.resize(*random.pick(&[0, LENGTH - 1, LENGTH + 1, any]), 0);
    } else {
        for _ in 0..1 + random.below(2) {
            let at = place(area, random);
            let byte = bytes[at];
            // The last is a letter's other case.
            let others = [0, 1, 2, 255, byte ^ 1, byte.wrapping_add(1), byte ^ 0x20];
            bytes[at] = *random.pick(&others);
        }
    }
    bytes
}

/// A byte of the header or of any slot, more often one that is used.
fn place(area: &Area, random: &mut Random) -> usize {
    let (keys, names) = (area.used_keys(), area.used_names());
    match random.below(4) {
        0 => random.below(8),
        1 if !keys.is_empty() => 8 + 72 * random.pick(&keys) + random.below(72),
        2 if !names.is_empty() => 4616 + 272 * random.pick(&names) + random.below(20),
        _ => random.below(LENGTH),
    }
}
