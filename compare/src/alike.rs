//! Two names of one length, and two keys, that differ in one bit, at every place; and equal ones.

pub mod two;

use crate::area::{Area, Key};
use crate::both;
use crate::call::{Answer, Call, Connection};
use crate::make;
use crate::plain_names;
use crate::small_tables::{self, LATEST};

/// The name slot and the key slot of each of two pins.
const SLOTS: [[(usize, usize); 2]; 3] = [
    [(0, 63), (127, 0)],
    [(127, 0), (0, 63)],
    [(63, 31), (64, 32)],
];

/// How many tables with two that differ were sound, and how many with two equal ones damaged.
#[derive(Default)]
struct Count {
    different: u64,
    equal: u64,
}

impl Count {
    fn report(&self, what: &str) -> Result<(), String> {
        let Count { different, equal } = self;
        println!(
            "{what} that differ in one bit: {different} tables sound, each of the two found; equal: {equal} damaged"
        );
        match [different, equal].contains(&&0) {
            true => Err(format!("{what}: different or equal ones never came")),
            false => Ok(()),
        }
    }
}

/// What the names and the keys have met so far.
#[derive(Default)]
pub struct Alike {
    names: Count,
    keys: Count,
}

impl Alike {
    /// Names of up to 70 bytes, of 252 and of 253; keys.
    pub fn edges(&mut self) -> Result<u64, String> {
        let before = self.tables();
        for length in (1..=70).chain(252..=253) {
            // Two of the labels, joined by a letter, are still a label.
            let name = plain_names::of_many_letters(length, 30);
            for other in one_bit_unlike(&name, is_letter_or_digit) {
                self.names(&name, &other)
                    .map_err(|problem| format!("{problem}; names {name:02x?}, {other:02x?}"))?;
            }
        }
        let key = key();
        for other in one_bit_unlike(&key, |_| true) {
            self.keys(&key, &other)
                .map_err(|problem| format!("{problem}; keys {key:02x?}, {other:02x?}"))?;
        }
        Ok(self.tables() - before)
    }

    fn tables(&self) -> u64 {
        let Alike { names, keys } = self;
        names.different + names.equal + keys.different + keys.equal
    }

    fn names(&mut self, one: &[u8], other: &[u8]) -> Result<(), String> {
        for slots in SLOTS {
            let [first, last] = slots.map(|(name_slot, _)| name_slot);
            let mut area = small_tables::with_pins_in(&slots);
            area.put_name(first, one);
            area.put_name(last, other);
            is_inspected(&mut area, first, false)?;
            is_inspected(&mut area, last, false)?;
            self.names.different += 1;
            area.put_name(first, other);
            is_damaged(&area)?;
            self.names.equal += 1;
        }
        Ok(())
    }

    fn keys(&mut self, one: &[u8], other: &[u8]) -> Result<(), String> {
        for slots in SLOTS {
            let [first, last] = slots.map(|(_, key_slot)| key_slot);
            let mut area = small_tables::with_pins_in(&slots);
            area.key_slot_mut(first)[8..].copy_from_slice(one);
            area.key_slot_mut(last)[8..].copy_from_slice(other);
            is_shown(&area, first)?;
            is_shown(&area, last)?;
            self.keys.different += 1;
            area.key_slot_mut(first)[8..].copy_from_slice(other);
            is_damaged(&area)?;
            self.keys.equal += 1;
        }
        Ok(())
    }

    /// The verdict: names and keys that differ, and equal ones, came.
    pub fn finish(&self) -> Result<(), String> {
        self.names.report("names of one length")?;
        self.keys.report("keys")
    }
}

/// Every byte of it is another.
fn key() -> Key {
    std::array::from_fn(|place| (37 * place) as u8)
}

fn is_letter_or_digit(byte: u8) -> bool {
    matches!(byte, b'a'..=b'z' | b'0'..=b'9')
}

/// The same bytes with one bit of one byte flipped, at every place, where the byte may then stand there.
fn one_bit_unlike(bytes: &[u8], may_stand: fn(u8) -> bool) -> Vec<Vec<u8>> {
    let mut others = vec![];
    for (place, byte) in bytes.iter().enumerate() {
        let flipped = (0..8).map(|bit| byte ^ 1 << bit);
        for byte in flipped.filter(|&byte| may_stand(byte)) {
            let mut other = bytes.to_vec();
            other[place] = byte;
            others.push(other);
        }
    }
    others
}

/// Inspection of the slot's name, of its first or its second record, answers the slot's own.
fn is_inspected(area: &mut Area, slot: usize, second: bool) -> Result<(), String> {
    let record = area.record(slot);
    let end = record.end.unwrap_or(0);
    let own = Answer {
        number: 6,
        floor: area.key_slot(record.key_slot)[1],
        initial: record.initial,
        end,
        minutes_left: i64::from(end) - i64::from(LATEST),
        ..Answer::default()
    };
    let inspection = Call::Inspect {
        name: area.name(slot).to_vec(),
        clock: u64::from(LATEST),
        second,
    };
    let answer = both::call(&mut area.bytes, &inspection)?;
    match answer == own {
        true => Ok(()),
        false => Err(format!(
            "both answer {answer:?} for name slot {slot}, not {own:?}"
        )),
    }
}

/// A new name that shows the slot's key is recorded on it.
fn is_shown(area: &Area, slot: usize) -> Result<(), String> {
    let name = b"new.example";
    let connection = Connection::at(LATEST, name).with(make::showing(area.key(slot)));
    let mut after = area.clone();
    let answer = both::call(&mut after.bytes, &Call::Judge(connection))?;
    let recorded = after
        .find_name(name)
        .map(|name| after.record(name).key_slot);
    match recorded == Some(slot) {
        true => Ok(()),
        false => Err(format!(
            "both answer {answer:?} to the key of slot {slot} and record the name on {recorded:?}"
        )),
    }
}

fn is_damaged(area: &Area) -> Result<(), String> {
    match both::is_sound(&area.bytes)? {
        false => Ok(()),
        true => Err("both find a table sound with the second one twice".into()),
    }
}

#[test]
fn names_differ_at_every_place() {
    let name = plain_names::of_many_letters(253, 30);
    let others = one_bit_unlike(&name, is_letter_or_digit);
    for place in 0..name.len() {
        assert!(others.iter().any(|other| other[place] != name[place]));
    }
}
