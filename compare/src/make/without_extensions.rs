//! A night of calls without an extension, whose table never gets a record.

use super::{Pins, FILLING};
use crate::area::NAME_SLOTS;
use crate::call::Connection;
use crate::random::Random;

const FIRST_CLOCK: u32 = 1_000;

/// So many calls, behind as many as fill a table, so that this night is timed as one on a full table. The clock moves on by a
/// minute every ten calls.
pub fn without_extensions(calls: u64, seed: u64) -> impl Iterator<Item = Connection> {
    let mut random = Random::new(seed);
    (0..FILLING as u64 + calls).map(move |index| {
        let clock = FIRST_CLOCK + (index / 10) as u32;
        Connection::at(clock, &(Pins::ALIKE.name)(random.below(NAME_SLOTS)))
    })
}
