//! Name fields of every length, and at some lengths every byte and every two bytes that matter, at every place.

use super::field::{Field, BYTES};
use super::kinds::Kind;
use crate::plain_names::of_one_letter;

/// At 8, 32 and 64 bytes the library begins to test or to compare a name in another way; 253 is the longest.
pub const LENGTHS: [usize; 18] = [
    1, 2, 7, 8, 9, 30, 31, 32, 33, 34, 61, 62, 63, 64, 65, 66, 252, 253,
];

/// Bytes of names, and those next to them in value.
const ONE: &[u8] = b"-.09az/:`{@AZ\0\x7f\x80\xff";

/// Every two of a hyphen, a dot and a letter.
const TWO: [&[u8; 2]; 9] = [
    b"--", b"-.", b"-a", b".-", b"..", b".a", b"a-", b"a.", b"aa",
];

const BEHIND: &[u8] = b"\x01a.-";

/// Two labels of these, joined by a letter, are still a label.
const SHORT: usize = 30;
const LONGEST: usize = 63;

pub type Fields = Vec<(Kind, Field)>;

pub fn all() -> Fields {
    let mut fields = plain();
    for length in LENGTHS {
        let name = of_one_letter(length, SHORT);
        fields.extend(behind(&name));
        fields.extend(within(&name));
        // Where that is another name: one label.
        if (SHORT + 1..=LONGEST).contains(&length) {
            fields.extend(within(&of_one_letter(length, LONGEST)));
        }
    }
    fields
}

/// Names of every length, in short labels, in the longest labels, and in longer ones.
fn plain() -> Fields {
    let field = |kind, length, letters| (kind, Field::of(&of_one_letter(length, letters)));
    let mut fields = vec![];
    for length in 1..=253 {
        fields.push(field(Kind::ShortLabels, length, SHORT));
        // The last label would have one letter too many.
        if length % (LONGEST + 1) != 0 {
            fields.push(field(Kind::LongestLabels, length, LONGEST));
        }
        if length > LONGEST {
            fields.push(field(Kind::LabelTooLong, length, LONGEST + 1));
        }
    }
    fields.extend([0, 254, 255].map(|length| field(Kind::LengthOutside, length, SHORT)));
    fields
}

/// One byte changed, or two beside each other.
fn within(name: &[u8]) -> Fields {
    let mut fields = vec![];
    for place in 0..name.len() {
        let is_at_end = place == 0 || place + 1 == name.len();
        for &byte in ONE {
            let field = Field::of(name).with(place, &[byte]);
            fields.push((kind_of_one(byte, is_at_end), field));
        }
    }
    for place in 1..name.len() {
        for two in TWO {
            fields.push((kind_of_two(two), Field::of(name).with(place - 1, two)));
        }
    }
    fields
}

fn kind_of_one(byte: u8, is_at_end: bool) -> Kind {
    match byte {
        b'a'..=b'z' | b'0'..=b'9' => Kind::LetterOrDigit,
        b'-' if is_at_end => Kind::HyphenAtEnd,
        b'-' => Kind::HyphenWithin,
        b'.' if is_at_end => Kind::DotAtEnd,
        b'.' => Kind::DotWithin,
        b'A'..=b'Z' => Kind::Capital,
        0 => Kind::Zero,
        _ => Kind::Other,
    }
}

fn kind_of_two(two: &[u8; 2]) -> Kind {
    match two {
        b"--" => Kind::TwoHyphens,
        b"-." => Kind::HyphenThenDot,
        b".-" => Kind::DotThenHyphen,
        b".." => Kind::TwoDots,
        b"-a" | b"a-" => Kind::HyphenAndLetter,
        b".a" | b"a." => Kind::DotAndLetter,
        _ => Kind::TwoLetters,
    }
}

/// A byte other than zero behind the name, at every place.
fn behind(name: &[u8]) -> Fields {
    let places = name.len()..BYTES;
    let field = |place, byte| (Kind::Behind, Field::of(name).with(place, &[byte]));
    places
        .flat_map(|place| BEHIND.iter().map(move |&byte| field(place, byte)))
        .collect()
}
