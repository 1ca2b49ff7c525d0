//! A night on a full table of 128 names and 64 keys.

use super::{showing, Pins};
use crate::area::{KEY_SLOTS, NAME_SLOTS};
use crate::call::Connection;
use crate::random::Random;

/// When the pins are made, and when they are activated for the longest time there is.
const MADE: u32 = 1_000;
const ACTIVATED: u32 = 60_000;

/// So many calls fill the table.
pub const FILLING: usize = 2 * NAME_SLOTS;

/// The calls that fill the table, and so many more, which leave it full.
pub fn full(pins: Pins, calls: u64, seed: u64) -> impl Iterator<Item = Connection> {
    let mut random = Random::new(seed);
    let call = move |index| pins.call(clock(index), &mut random);
    pins.filling().chain((0..calls).map(call))
}

/// The clock moves on by a minute every ten calls.
fn clock(index: u64) -> u32 {
    ACTIVATED + (index / 10) as u32
}

impl Pins {
    /// Every pin made, then every pin activated: twice as many calls as there are names.
    fn filling(self) -> impl Iterator<Item = Connection> {
        let clocks = [MADE, ACTIVATED].into_iter();
        clocks.flat_map(move |clock| {
            (0..NAME_SLOTS).map(move |number| self.at(clock, number).with(self.shown(number)))
        })
    }

    fn at(self, clock: u32, number: usize) -> Connection {
        Connection::at(clock, &(self.name)(number))
    }

    /// The extension that shows a name's key; two names share a key.
    fn shown(self, number: usize) -> Vec<u8> {
        showing((self.key)(number % KEY_SLOTS))
    }

    /// Of sixteen calls about twelve confirm their pins and two contradict them, one without an extension; one is of a name
    /// that the table has no room for, and one is malformed.
    fn call(self, clock: u32, random: &mut Random) -> Connection {
        let number = random.below(NAME_SLOTS);
        let connection = self.at(clock, number);
        let mut shown = self.shown(number);
        match random.below(16) {
            12 => connection,
            13 => connection.with(self.shown(number + 1)),
            14 => self.at(clock, NAME_SLOTS + number).with(shown),
            15 => {
                shown.push(0);
                connection.with(shown)
            }
            _ => connection.with(shown),
        }
    }
}
