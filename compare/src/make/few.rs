//! A night of few names, whose table is nearly empty: what a call costs by itself.

use super::showing;
use crate::call::Connection;
use crate::pool;
use crate::random::Random;

const NAMES: usize = 4;
/// Two names share a key.
const KEYS: usize = 3;
const FIRST_CLOCK: u32 = 1_000;

/// Names and keys of these families of the pool.
const NAME_FAMILY: usize = 1;
const KEY_FAMILY: usize = 1;

/// Of sixteen calls about twelve show their names' keys; one shows another, one shows nothing, one is malformed, and one's
/// handshake did not finish. The clock moves on by a minute every ten calls.
pub fn few(calls: u64, seed: u64) -> impl Iterator<Item = Connection> {
    let mut random = Random::new(seed);
    (0..calls).map(move |index| call(index, &mut random))
}

fn call(index: u64, random: &mut Random) -> Connection {
    let number = random.below(NAMES);
    let key = |number: usize| pool::key(KEY_FAMILY, number % KEYS);
    let clock = FIRST_CLOCK + (index / 10) as u32;
    let silent = Connection::at(clock, &pool::name(NAME_FAMILY, number));
    let mut shown = showing(key(number));
    match random.below(16) {
        12 => silent,
        13 => silent.with(showing(key(number + 1))),
        14 => {
            shown.pop();
            silent.with(shown)
        }
        15 => Connection {
            handshake_finished: false,
            ..silent.with(shown)
        },
        _ => silent.with(shown),
    }
}
