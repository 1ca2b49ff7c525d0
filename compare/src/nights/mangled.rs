//! Nights in which a call is not as it must be, or only just as it may be.

use super::whole;
use crate::call::Connection;
use crate::make;
use crate::pool;
use crate::random::Random;
use crate::record::{self, Field, ANSWERS, CLOCK, END, EXTENSION, HASH, NAME};

/// The bytes of the call that is mangled: a name of 20 and an extension of 170.
pub const CALL_LENGTH: usize = 246;

/// The places of its fields, which stand in the order of their tags.
const EXTENSION_PLACE: usize = place(EXTENSION);
const ANSWERS_PLACE: usize = place(ANSWERS);

const fn place(tag: u8) -> usize {
    tag as usize - 1
}

/// Field by field, lengths of contents that are none.
pub const WRONG_LENGTHS: &[(u8, usize)] = &[
    (CLOCK, 0),
    (CLOCK, 3),
    (CLOCK, 5),
    (CLOCK, 8),
    (NAME, 301),
    (NAME, 556),
    (NAME, 65_535),
    (ANSWERS, 0),
    (ANSWERS, 1),
    (ANSWERS, 3),
    (HASH, 0),
    (HASH, 31),
    (HASH, 33),
    (HASH, 288),
    (EXTENSION, 4_097),
    (EXTENSION, 8_192),
    (EXTENSION, 65_535),
    (END, 1),
    (END, 2),
    (END, 256),
];

/// The shortest and the longest contents of the fields that have no length of their own.
pub const LIMITS: &[(u8, usize)] = &[
    (NAME, 0),
    (NAME, 1),
    (NAME, 255),
    (NAME, 256),
    (NAME, 299),
    (NAME, 300),
    (EXTENSION, 0),
    (EXTENSION, 1),
    (EXTENSION, 255),
    (EXTENSION, 256),
    (EXTENSION, 4_095),
    (EXTENSION, 4_096),
];

/// Tags of no field, and by how much another field's tag is off.
pub const TAGS: &[Tag] = &[
    Tag::Is(0),
    Tag::Is(7),
    Tag::Is(0x80),
    Tag::Is(0xff),
    Tag::Off(1),
    Tag::Off(-1),
    Tag::Off(64),
];

#[derive(Clone, Copy)]
pub enum Tag {
    Is(u8),
    Off(i8),
}

/// A few random calls, and among them a plain one that is to be mangled.
struct Base {
    calls: Vec<Vec<Field>>,
    /// The place of the plain call.
    plain: usize,
}

impl Base {
    fn new(random: &mut Random) -> Base {
        let others = random.below(6);
        let night = make::random(others as u64, random.seed());
        let mut calls: Vec<Vec<Field>> = night.filter_map(|call| record::fields(&call)).collect();
        let plain = random.below(calls.len() + 1);
        calls.insert(plain, plain_call(random));
        Base { calls, plain }
    }

    /// The fields of the plain call.
    fn fields(&mut self) -> &mut Vec<Field> {
        &mut self.calls[self.plain]
    }

    fn bytes(&self) -> Vec<u8> {
        record::bytes(self.calls.iter().flatten())
    }

    /// Where the plain call starts.
    fn start(&self) -> usize {
        record::bytes(self.calls[..self.plain].iter().flatten()).len()
    }
}

/// A call with every field, each well-formed.
fn plain_call(random: &mut Random) -> Vec<Field> {
    let name = pool::name(1, random.below(4));
    let call = Connection::at(random.up_to(100_000), &name);
    let key = pool::key(1, random.below(4));
    let fields = record::fields(&call.with(make::showing(key)));
    let fields = fields.expect("a plain call is recordable");
    assert_eq!(record::bytes(&fields).len(), CALL_LENGTH);
    fields
}

/// A night with its plain call changed.
fn changed(random: &mut Random, change: impl FnOnce(&mut Vec<Field>, &mut Random)) -> Vec<u8> {
    let mut base = Base::new(random);
    change(base.fields(), random);
    base.bytes()
}

/// A long night without its last bytes; no call has fewer than 53.
pub fn long_cut(case: usize, random: &mut Random) -> Vec<u8> {
    let mut night = whole::long(case, random);
    night.truncate(night.len() - 1 - random.below(50));
    night
}

pub fn cut_in_call(case: usize, random: &mut Random) -> Vec<u8> {
    let base = Base::new(random);
    let mut night = base.bytes();
    night.truncate(base.start() + 1 + case);
    night
}

pub fn cut_anywhere(_case: usize, random: &mut Random) -> Vec<u8> {
    let mut night = Base::new(random).bytes();
    night.truncate(random.below(night.len() + 1));
    night
}

pub fn cut_between_calls(_case: usize, random: &mut Random) -> Vec<u8> {
    let mut base = Base::new(random);
    base.calls.truncate(random.below(base.calls.len() + 1));
    base.bytes()
}

/// The calls after the cut off one may go on where it ended.
pub fn cut_before_others(_case: usize, random: &mut Random) -> Vec<u8> {
    let base = Base::new(random);
    let mut night = base.bytes();
    let start = base.start();
    night.drain(start + 1 + random.below(CALL_LENGTH - 1)..start + CALL_LENGTH);
    night
}

/// Every field in every other place.
pub fn field_moved(case: usize, random: &mut Random) -> Vec<u8> {
    changed(random, |fields, _| move_field(fields, case))
}

pub fn field_moved_without_extension(case: usize, random: &mut Random) -> Vec<u8> {
    changed(random, |fields, _| {
        fields.remove(EXTENSION_PLACE);
        move_field(fields, case);
    })
}

fn move_field(fields: &mut Vec<Field>, case: usize) {
    let others = fields.len() - 1;
    let (from, to) = (case / others, case % others);
    let field = fields.remove(from);
    fields.insert(if to < from { to } else { to + 1 }, field);
}

/// Every field but the extension.
pub fn field_missing(case: usize, random: &mut Random) -> Vec<u8> {
    changed(random, |fields, _| {
        fields.remove([CLOCK, NAME, ANSWERS, HASH, END].map(place)[case]);
    })
}

pub fn extension_missing(_case: usize, random: &mut Random) -> Vec<u8> {
    changed(random, |fields, _| {
        fields.remove(EXTENSION_PLACE);
    })
}

pub fn field_twice(case: usize, random: &mut Random) -> Vec<u8> {
    changed(random, |fields, _| {
        fields.insert(case, fields[case].clone())
    })
}

/// The length alone; the end has none that is shorter.
pub fn length_short(case: usize, random: &mut Random) -> Vec<u8> {
    changed(random, |fields, _| fields[case].length -= 1)
}

pub fn length_long(case: usize, random: &mut Random) -> Vec<u8> {
    changed(random, |fields, _| fields[case].length += 1)
}

/// The field may reach into the next ones.
pub fn length_any(case: usize, random: &mut Random) -> Vec<u8> {
    changed(random, |fields, random| {
        let field = &mut fields[case % 6];
        let one_bit = field.length ^ 1 << random.below(16);
        let any = random.up_to(0xffff) as u16;
        field.length = *random.pick(&[one_bit, any, 0xffff]);
    })
}

pub fn contents_wrong(case: usize, random: &mut Random) -> Vec<u8> {
    changed(random, |fields, _| resize(fields, WRONG_LENGTHS[case]))
}

pub fn contents_at_limits(case: usize, random: &mut Random) -> Vec<u8> {
    changed(random, |fields, _| resize(fields, LIMITS[case]))
}

/// Contents of another length, and the length with them.
fn resize(fields: &mut [Field], (tag, length): (u8, usize)) {
    let mut contents = fields[place(tag)].contents.clone();
    contents.resize(length, b'a');
    fields[place(tag)] = Field::new(tag, &contents);
}

/// Each of the upper five bits alone, then several.
pub fn answers_wrong(case: usize, random: &mut Random) -> Vec<u8> {
    changed(random, |fields, random| {
        let wrong = match case {
            0..=4 => 8 << case,
            _ => 8 * (1 + random.below(31)) as u8,
        };
        fields[ANSWERS_PLACE].contents = vec![random.below(8) as u8 | wrong, random.byte()];
    })
}

/// Each of the lower three bits, with any break bits.
pub fn answers_right(case: usize, random: &mut Random) -> Vec<u8> {
    changed(random, |fields, random| {
        fields[ANSWERS_PLACE].contents = vec![(case % 8) as u8, random.byte()];
    })
}

pub fn tag_wrong(case: usize, random: &mut Random) -> Vec<u8> {
    changed(random, |fields, _| {
        let field = &mut fields[case % 6];
        field.tag = match TAGS[case / 6] {
            Tag::Is(tag) => tag,
            Tag::Off(by) => field.tag.wrapping_add_signed(by),
        };
    })
}

/// Too few for a call.
pub fn bytes_behind(case: usize, random: &mut Random) -> Vec<u8> {
    let mut night = Base::new(random).bytes();
    night.extend(random.bytes(1 + case));
    night
}

pub fn calls_exchanged(_case: usize, random: &mut Random) -> Vec<u8> {
    let mut base = Base::new(random);
    let other = random.below(base.calls.len());
    base.calls.swap(base.plain, other);
    base.bytes()
}

pub fn call_twice(_case: usize, random: &mut Random) -> Vec<u8> {
    let mut base = Base::new(random);
    let again = base.fields().clone();
    base.calls.push(again);
    base.bytes()
}

pub fn byte_more(_case: usize, random: &mut Random) -> Vec<u8> {
    let mut night = Base::new(random).bytes();
    let at = random.below(night.len() + 1);
    let byte = random.byte();
    night.insert(at, *random.pick(&[byte, 0, 1, 6]));
    night
}

pub fn byte_less(_case: usize, random: &mut Random) -> Vec<u8> {
    let mut night = Base::new(random).bytes();
    night.remove(random.below(night.len()));
    night
}

/// Any bit of the night.
pub fn bit_flipped(_case: usize, random: &mut Random) -> Vec<u8> {
    let mut night = Base::new(random).bytes();
    let at = random.below(night.len());
    night[at] ^= 1 << random.below(8);
    night
}

/// Any bit of a field's tag or length.
pub fn header_flipped(case: usize, random: &mut Random) -> Vec<u8> {
    changed(random, |fields, random| {
        let field = &mut fields[case % 6];
        match random.below(3) {
            0 => field.tag ^= 1 << random.below(8),
            _ => field.length ^= 1 << random.below(16),
        }
    })
}

pub fn bytes_changed(_case: usize, random: &mut Random) -> Vec<u8> {
    let mut night = Base::new(random).bytes();
    for _ in 0..2 + random.below(8) {
        let at = random.below(night.len());
        night[at] = random.byte();
    }
    night
}

/// Some begin as a call does.
pub fn random_bytes(case: usize, random: &mut Random) -> Vec<u8> {
    let length = 1 + random.below(2_000);
    let bytes = random.bytes(length);
    match case % 2 {
        0 => bytes,
        _ => [&[CLOCK, 0, 4][..], &bytes].concat(),
    }
}
