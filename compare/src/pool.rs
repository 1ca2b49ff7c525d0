//! Names and keys by number, in families that are alike where a careless comparison would stop or go on too long, or that share
//! a mark.

use crate::area::Key;
use crate::marks;

pub const NAME_FAMILIES: usize = 9;
pub const KEY_FAMILIES: usize = 6;

/// The bytes next to the letters, capital and small: no name has them, and folding leaves them as they are.
pub const BESIDE_LETTERS: &[u8] = b"@[`{";

/// A well-formed name in small letters; other numbers below 1,000 give other names of the family.
pub fn name(family: usize, number: usize) -> Vec<u8> {
    let digits = format!("{number:03}");
    let letter = char::from(b'a' + (number % 26) as u8);
    let name = match family {
        // Some of these begin others.
        0 => format!("h{number}"),
        // Every letter comes.
        1 => format!("{letter}-{digits}.clinic.example"),
        2 => format!("{}.{digits}", "a".repeat(56)),
        // 253 bytes, that end or begin alike.
        3 => format!("{digits}{}", long()),
        4 => format!("{}{digits}", long()),
        5 => return one_unlike(number),
        // They share a mark, of 20 bytes or of 253.
        6 => return marks::name_of_20(number),
        7 => return marks::name_of_253(number),
        _ => return self::name(number % 8, number),
    };
    name.into_bytes()
}

/// Each differs from the first in one byte, at any place.
fn one_unlike(number: usize) -> Vec<u8> {
    let mut name = [b'a'; 60];
    if let Some(index) = number.checked_sub(1) {
        name[index % 60] = b'b' + (index / 60) as u8;
    }
    name.to_vec()
}

fn long() -> String {
    let letter = |place| if place % 50 == 46 { '.' } else { 'a' };
    (0..250).map(letter).collect()
}

/// A key; other numbers below 256 give other keys of the family. Number 0 is all zero, as a free slot is, in every family
/// but the one of 0xff.
pub fn key(family: usize, number: usize) -> Key {
    let byte = number as u8;
    let mut key = [0; 64];
    match family {
        0 => key.fill(byte),
        1 => key[63] = byte,
        2 => key[0] = byte,
        3 => {
            key.fill(0xff);
            key[31] = byte;
        }
        // Each differs from the first in one byte, at any place.
        4 => {
            if let Some(index) = number.checked_sub(1) {
                key[index % 64] = 1 + (index / 64) as u8;
            }
        }
        // They share a mark.
        _ => return marks::key(number),
    }
    key
}
