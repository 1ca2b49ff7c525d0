//! The same in edition two: names that differ in one bit, and two records of one; the keys of two tacks.

use super::{is_damaged, is_inspected, is_letter_or_digit, key, one_bit_unlike, SLOTS};
use crate::area::{Area, Key};
use crate::both;
use crate::call::{Call, ConnectionTwo};
use crate::kind_counts::{counted_kinds, KindCounts};
use crate::make::generation_3;
use crate::plain_names;
use crate::small_tables::{self, LATEST};
use crate::wire;

/// Around the words and the lengths at which the soundness check goes another way; the longest.
const LENGTHS: [usize; 10] = [1, 7, 8, 9, 20, 31, 33, 63, 64, 253];

counted_kinds! {
    /// Two names or two keys that were compared.
    Compared, "two names or two keys in edition two";
    DifferentNames, "names that differ in one bit: each has one record";
    EqualNames, "equal names: the first and the second record found";
    EqualPins, "equal names on one key: damaged";
    DifferentKeys, "tacks whose keys differ in one bit: both pinned";
    EqualKeys, "tacks with one key: 24";
    UnlikeKey, "a key that differs from the active one in one bit: contradicted";
}

/// What was compared so far.
#[derive(Default)]
pub struct AlikeTwo(KindCounts<Compared>);

impl AlikeTwo {
    pub fn edges(&mut self) -> Result<u64, String> {
        let mut pairs = 0;
        for length in LENGTHS {
            let name = plain_names::of_many_letters(length, 30);
            for other in one_bit_unlike(&name, is_letter_or_digit) {
                self.names(&name, &other)
                    .map_err(|problem| format!("{problem}; names {name:02x?}, {other:02x?}"))?;
                pairs += 1;
            }
        }
        for other in one_bit_unlike(&key(), |_| true) {
            let mut other_key = [0; 64];
            other_key.copy_from_slice(&other);
            self.keys(&key(), &other_key)
                .map_err(|problem| format!("{problem}; keys {:02x?}, {other:02x?}", key()))?;
            pairs += 1;
        }
        Ok(pairs)
    }

    /// In the first slot and the last.
    fn names(&mut self, one: &[u8], other: &[u8]) -> Result<(), String> {
        let [(first, _), (last, _)] = SLOTS[0];
        let mut area = with_two_pins();
        area.put_name(first, one);
        area.put_name(last, other);
        is_inspected(&mut area, first, false)?;
        is_inspected(&mut area, last, false)?;
        self.0.add(Compared::DifferentNames);
        area.put_name(first, other);
        is_inspected(&mut area, first, false)?;
        is_inspected(&mut area, last, true)?;
        self.0.add(Compared::EqualNames);
        let record = area.record(last);
        area.key_slot_mut(area.record(first).key_slot).fill(0);
        area.put_record(first, record);
        is_damaged(&area)?;
        self.0.add(Compared::EqualPins);
        Ok(())
    }

    /// The name of the first slot is pinned to the first key.
    fn keys(&mut self, one: &Key, other: &Key) -> Result<(), String> {
        let [(first, key_slot), _] = SLOTS[0];
        let mut area = with_two_pins();
        area.key_slot_mut(key_slot)[8..].copy_from_slice(one);
        let mut after = area.clone();
        judged(&mut after, first, &[one, other], 0)?;
        match after.pins_of(area.name(first)).len() {
            2 => self.0.add(Compared::DifferentKeys),
            pins => return Err(format!("both leave {pins} records")),
        }
        judged(&mut area.clone(), first, &[other, other], 24)?;
        self.0.add(Compared::EqualKeys);
        let mut record = area.record(first);
        record.end = Some(LATEST + 1);
        area.put_record(first, record);
        judged(&mut area, first, &[other], 2)?;
        self.0.add(Compared::UnlikeKey);
        Ok(())
    }

    /// The verdict: every kind came.
    pub fn finish(&self) -> Result<(), String> {
        self.0.report()
    }
}

/// A pin in the first slot and one in the last; both have ended.
fn with_two_pins() -> Area {
    let mut area = small_tables::with_pins_in(&SLOTS[0]);
    area.set_edition_byte(1);
    area
}

/// A connection for the slot's name that shows these keys, enabled, is answered with the number.
fn judged(area: &mut Area, slot: usize, keys: &[&Key], number: u8) -> Result<(), String> {
    let tacks: Vec<wire::Tack> = keys.iter().map(|key| generation_3(**key)).collect();
    let flags = (1 << tacks.len()) - 1;
    let connection = ConnectionTwo::at(LATEST, area.name(slot));
    let call = Call::JudgeTwo(connection.with(wire::extension_two(&tacks, flags)));
    let answer = both::call(&mut area.bytes, &call)?;
    match answer.number == number {
        true => Ok(()),
        false => Err(format!("both answer {answer:?}, not {number}")),
    }
}
