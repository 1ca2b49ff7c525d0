//! Random name fields.

use super::edges;
use super::field::{Field, BYTES};
use super::kinds::Kind;
use crate::random::Random;

/// A name with its length, with any byte in it, with a wrong length, or with one or more bytes behind it.
pub fn field(random: &mut Random) -> (Kind, Field) {
    let mut name = name(random);
    match random.below(8) {
        0 if !name.is_empty() => {
            let place = random.below(name.len());
            name[place] = random.byte();
            (Kind::DrawnByte, Field::of(&name))
        }
        1 => (Kind::DrawnLength, with_wrong_length(&name, random)),
        2 => (Kind::DrawnBehind, with_bytes_behind(&name, random)),
        _ => (Kind::Drawn, Field::of(&name)),
    }
}

/// Of bytes that may be a name's; in some names every second one is a dot or a hyphen, in others few are.
fn name(random: &mut Random) -> Vec<u8> {
    let any = random.below(BYTES);
    let edge = *random.pick(&edges::LENGTHS);
    let length = *random.pick(&[any, edge, edge]);
    let one_mark_in = *random.pick(&[2, 8, 20]);
    let mut byte = || match random.one_in(one_mark_in) {
        true => *random.pick(b"-."),
        false => *random.pick(b"a0"),
    };
    (0..length).map(|_| byte()).collect()
}

/// No byte of the name is zero: so a shorter length has one of them behind it, and a longer one a zero within.
fn with_wrong_length(name: &[u8], random: &mut Random) -> Field {
    let mut field = Field::of(name);
    while usize::from(field.length) == name.len() {
        field.length = near(name.len(), 0, BYTES - 1, random) as u8;
    }
    field
}

fn with_bytes_behind(name: &[u8], random: &mut Random) -> Field {
    let mut field = Field::of(name);
    for _ in 0..*random.pick(&[1, 1, 2, 8]) {
        let place = near(name.len(), name.len(), BYTES - 1, random);
        field.bytes[place] = random.byte_from(1);
    }
    field
}

/// A number from the first to the last, often near this one.
fn near(number: usize, first: usize, last: usize, random: &mut Random) -> usize {
    let any = first + random.below(last - first + 1);
    let beside = (number + random.below(5)).saturating_sub(2);
    *random.pick(&[any, beside.clamp(first, last)])
}
