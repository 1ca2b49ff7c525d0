//! The names and keys that a night is made of.

use crate::area::Key;
use crate::pool;

/// Names and keys by number: 256 names, and 64 keys at least, all different.
#[derive(Clone, Copy)]
pub struct Pins {
    pub name: fn(usize) -> Vec<u8>,
    pub key: fn(usize) -> Key,
}

impl Pins {
    /// Names of 20 bytes that end alike, and keys that are equal in their first 63 bytes.
    pub const ALIKE: Pins = Pins {
        name: |number| pool::name(1, number),
        key: |number| pool::key(1, number),
    };
}
