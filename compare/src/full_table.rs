//! A full table for the tests of what finds room in it.

use crate::area::{Area, Key};
use crate::make::{self, Pins};

/// No name and no key of the table has this number.
pub const NEW: usize = 200;

/// All pins of the table are active at the first clock, and none is at the second.
pub const ACTIVE: u32 = 100_000;
pub const AFTER_ALL: u32 = 200_000;

/// The second program fills it with 128 names, two on each of 64 keys: names 0 and 64 on key 0, and so on.
pub fn full() -> Area {
    let mut area = Area::empty();
    for call in make::full(Pins::ALIKE, 0, 1) {
        second::judge(&mut area.bytes, &call.for_second());
    }
    area
}

/// The same without name 64: a name slot is free, and name 0 alone on its key.
pub fn one_name_less() -> Area {
    let mut area = full();
    delete(&mut area, 64);
    area
}

pub fn delete(area: &mut Area, number: usize) {
    assert_eq!(second::delete(&mut area.bytes, &name(number)).number, 3);
}

pub fn name(number: usize) -> Vec<u8> {
    (Pins::ALIKE.name)(number)
}

pub fn key(number: usize) -> Key {
    (Pins::ALIKE.key)(number)
}
