//! Tables to time: keys that begin alike and names that end alike, so that a comparison has to look far.

use tack::raw::{self, Connection};
use tack::table::AREA_LENGTH;

/// The SHA-256 of every server's SubjectPublicKeyInfo.
pub const HASH: [u8; 32] = [0x77; 32];
/// When the pins of a table were made, and when they were activated for the longest time there is.
const MADE: u64 = 1_000;
pub const ACTIVATED: u64 = 60_000;

/// Equal in the first 63 bytes.
pub fn key(number: usize) -> [u8; 64] {
    let mut key = [0x33; 64];
    key[63] = number as u8;
    key
}

/// Equal but for three digits; from 20 bytes on.
pub fn name(number: usize, length: usize) -> Vec<u8> {
    let middle: String = (0..length - 20)
        .rev()
        .map(|place| if place % 50 == 0 { '.' } else { 'a' })
        .collect();
    format!("no{number:03}.{middle}clinic.example").into_bytes()
}

/// A tack of generation 3.
pub fn tack(key: &[u8; 64]) -> Vec<u8> {
    let parts: [&[u8]; 5] = [key, &[3, 3], &[0xff; 4], &HASH, &[0x55; 64]];
    parts.concat()
}

/// An extension with one tack, activation enabled.
pub fn showing(key: &[u8; 64]) -> Vec<u8> {
    [&[166], &tack(key)[..], &[0, 0, 1]].concat()
}

/// A connection that passes every check. It gives the yes for disabled tacks, as `replay` does in each call; every tack here is
/// enabled, so that the work is the same without it.
pub fn connection<'a>(clock: u64, name: &'a [u8], extension: &'a [u8]) -> Connection<'a> {
    Connection {
        clock,
        name,
        extension_came: !extension.is_empty(),
        extension,
        spki_sha256: &HASH,
        handshake_finished: true,
        key_is_point: true,
        signature_correct: true,
        breaks_correct: 0,
        learn_disabled: true,
    }
}

/// What a table holds.
#[derive(Clone, Copy)]
pub struct Shape {
    pub names: usize,
    pub keys: usize,
    pub name_length: usize,
}

pub const FULL: Shape = Shape {
    names: 128,
    keys: 64,
    name_length: 20,
};

/// A table with an active pin for each name; name i is under key i modulo the number of keys.
pub fn table(shape: Shape) -> Vec<u8> {
    let mut table = vec![0; AREA_LENGTH];
    for (clock, number) in [(MADE, 0), (ACTIVATED, 1)] {
        for index in 0..shape.names {
            let (name, extension) = (
                name(index, shape.name_length),
                showing(&key(index % shape.keys)),
            );
            let judged = raw::judge(&mut table, &connection(clock, &name, &extension));
            assert_eq!((judged.number, judged.no_room), (number, false));
        }
    }
    table
}
