//! How each kind of damage is done to a sound table. Each function breaks its rule at the given slot, and no other rule.

use crate::area::{Area, Key, KEY_SLOTS, LIMIT, LONGEST};
use crate::pool;
use crate::random::Random;
use crate::spelling;

/// One byte of a part becomes another than 0; the first and the last more often than others.
fn stray(part: &mut [u8], random: &mut Random) {
    let any = random.below(part.len());
    let place = *random.pick(&[0, any, any, part.len() - 1]);
    part[place] = random.byte_from(1);
}

/// Another of the used slots.
fn another(used: Vec<usize>, slot: usize, random: &mut Random) -> usize {
    let others: Vec<usize> = used.into_iter().filter(|&other| other != slot).collect();
    *random.pick(&others)
}

pub fn latest_at_limit(area: &mut Area, _: usize, _: &mut Random) {
    area.set_latest(LIMIT);
}

pub fn latest_above_limit(area: &mut Area, slot: usize, random: &mut Random) {
    let above = match slot {
        0 => 1,
        2 => LONGEST,
        _ => 1 + random.up_to(LONGEST - 1),
    };
    area.set_latest(LIMIT + above);
}

/// A table of edition one is one of edition two as well.
pub fn edition_two(area: &mut Area, _: usize, _: &mut Random) {
    area.set_edition_byte(1);
}

/// The name of a pair stands twice in edition one.
pub fn edition_one(area: &mut Area, _: usize, _: &mut Random) {
    area.set_edition_byte(0);
}

pub fn edition_unknown(area: &mut Area, slot: usize, random: &mut Random) {
    let byte = match slot {
        0 => 2,
        2 => 255,
        _ => random.byte_from(2),
    };
    area.set_edition_byte(byte);
}

pub fn header(area: &mut Area, slot: usize, random: &mut Random) {
    area.bytes[5 + slot] = random.byte_from(1);
}

pub fn floor(area: &mut Area, slot: usize, random: &mut Random) {
    area.key_slot_mut(slot)[1] = random.byte();
}

pub fn key_used(area: &mut Area, slot: usize, random: &mut Random) {
    area.key_slot_mut(slot)[0] = random.byte_from(2);
}

pub fn key_padding(area: &mut Area, slot: usize, random: &mut Random) {
    stray(&mut area.key_slot_mut(slot)[2..8], random);
}

pub fn free_key_slot(area: &mut Area, slot: usize, random: &mut Random) {
    stray(&mut area.key_slot_mut(slot)[1..], random);
}

pub fn key_twice(area: &mut Area, slot: usize, random: &mut Random) {
    let key = area.key(another(area.used_keys(), slot, random));
    area.key_slot_mut(slot)[8..].copy_from_slice(&key);
}

pub fn key_alike(area: &mut Area, slot: usize, random: &mut Random) {
    let other = area.key(another(area.used_keys(), slot, random));
    let key = unrecorded_key(area, random, |key, random| {
        *key = other;
        stray(key, random);
    });
    area.key_slot_mut(slot)[8..].copy_from_slice(&key);
}

pub fn key_without_name(area: &mut Area, slot: usize, random: &mut Random) {
    let key = unrecorded_key(area, random, |key, random| random.fill(key));
    area.put_key(slot, random.byte(), &key);
}

/// Chooses until the key is a new one.
fn unrecorded_key(area: &Area, random: &mut Random, choose: impl Fn(&mut Key, &mut Random)) -> Key {
    let mut key = [0; 64];
    loop {
        choose(&mut key, random);
        if area.find_key(&key).is_none() {
            return key;
        }
    }
}

pub fn name_used(area: &mut Area, slot: usize, random: &mut Random) {
    area.name_slot_mut(slot)[0] = random.byte_from(2);
}

pub fn free_name_slot(area: &mut Area, slot: usize, random: &mut Random) {
    stray(&mut area.name_slot_mut(slot)[1..], random);
}

pub fn key_slot_number(area: &mut Area, slot: usize, random: &mut Random) {
    let any = random.byte_from(64);
    move_name(area, slot, *random.pick(&[64, any, 255]));
}

pub fn key_slot_free(area: &mut Area, slot: usize, random: &mut Random) {
    let used = area.used_keys();
    let free: Vec<usize> = (0..KEY_SLOTS).filter(|key| !used.contains(key)).collect();
    move_name(area, slot, *random.pick(&free) as u8);
}

/// Moves a name to another key slot, and its old key goes if no name is left on it.
fn move_name(area: &mut Area, slot: usize, key_slot: u8) {
    let old = area.record(slot).key_slot;
    area.name_slot_mut(slot)[1] = key_slot;
    let mut names = area.used_names().into_iter();
    if !names.any(|name| area.record(name).key_slot == old) {
        area.key_slot_mut(old).fill(0);
    }
}

pub fn length_0(area: &mut Area, slot: usize, _: &mut Random) {
    area.put_name(slot, b"");
}

pub fn length_254(area: &mut Area, slot: usize, random: &mut Random) {
    too_long(area, slot, 254, random);
}

pub fn length_255(area: &mut Area, slot: usize, random: &mut Random) {
    too_long(area, slot, 255, random);
}

/// A length above 253, over zeros or over bytes that could all be a name's.
fn too_long(area: &mut Area, slot: usize, length: u8, random: &mut Random) {
    if random.one_in(2) {
        let letter = |place| if place % 60 == 59 { b'.' } else { b'a' };
        let name: Vec<u8> = (0..length).map(letter).collect();
        area.put_name(slot, &name);
    }
    area.name_slot_mut(slot)[2] = length;
}

pub fn length_wrong(area: &mut Area, slot: usize, random: &mut Random) {
    let right = area.name(slot).len();
    let any = 1 + random.below(253);
    let mut wrong = vec![right - 1, right + 1, any];
    wrong.retain(|&length| length != right && length <= 253);
    area.name_slot_mut(slot)[2] = *random.pick(&wrong) as u8;
}

/// The end, if any, is this long after initial, which is latest.
fn set_times(area: &mut Area, slot: usize, end: Option<u32>) {
    let mut record = area.record(slot);
    record.initial = area.latest();
    record.end = end.map(|after| record.initial + after);
    area.put_record(slot, record);
}

pub fn initial_at_latest(area: &mut Area, slot: usize, _: &mut Random) {
    set_times(area, slot, None);
}

pub fn end_at_initial(area: &mut Area, slot: usize, _: &mut Random) {
    set_times(area, slot, Some(0));
}

pub fn end_at_last(area: &mut Area, slot: usize, _: &mut Random) {
    set_times(area, slot, Some(LONGEST));
}

pub fn end_present(area: &mut Area, slot: usize, random: &mut Random) {
    area.name_slot_mut(slot)[3] = random.byte_from(2);
}

pub fn end_absent(area: &mut Area, slot: usize, random: &mut Random) {
    set_times(area, slot, Some(random.up_to(LONGEST)));
    area.name_slot_mut(slot)[3] = 0;
}

pub fn end_below_initial(area: &mut Area, slot: usize, random: &mut Random) {
    let mut record = area.record(slot);
    record.initial = area.latest();
    let any = random.up_to(record.initial - 1);
    record.end = Some(*random.pick(&[0, any, record.initial - 1]));
    area.put_record(slot, record);
}

pub fn end_too_late(area: &mut Area, slot: usize, random: &mut Random) {
    let mut record = area.record(slot);
    let first = area.latest() + LONGEST + 1;
    let any = first + random.up_to(u32::MAX - first);
    record.end = Some(*random.pick(&[first, any, u32::MAX]));
    area.put_record(slot, record);
}

pub fn initial_above_latest(area: &mut Area, slot: usize, random: &mut Random) {
    let mut record = area.record(slot);
    let last_end = area.latest() + LONGEST;
    record.initial = area.latest() + 1 + random.up_to(LONGEST - 1);
    record.end = *random.pick(&[None, Some(record.initial), Some(last_end)]);
    area.put_record(slot, record);
}

pub fn before_name(area: &mut Area, slot: usize, random: &mut Random) {
    stray(&mut area.name_slot_mut(slot)[12..16], random);
}

pub fn behind_name(area: &mut Area, slot: usize, random: &mut Random) {
    if area.name(slot).len() == 253 {
        area.put_name(slot, b"only-here.example");
    }
    let end = 16 + area.name(slot).len();
    stray(&mut area.name_slot_mut(slot)[end..269], random);
}

pub fn name_slot_end(area: &mut Area, slot: usize, random: &mut Random) {
    stray(&mut area.name_slot_mut(slot)[269..], random);
}

pub fn name_twice(area: &mut Area, slot: usize, random: &mut Random) {
    let other = another(area.used_names(), slot, random);
    let name = area.name(other).to_vec();
    area.put_name(slot, &name);
}

/// The slot becomes the second of another's name, on another key.
pub fn second_record(area: &mut Area, slot: usize, random: &mut Random) {
    another_of_name(area, slot, 1, random);
}

/// The slot becomes the third of another's name, on a third key.
pub fn third_record(area: &mut Area, slot: usize, random: &mut Random) {
    another_of_name(area, slot, 2, random);
}

/// The slot becomes one more of a name that has so many records in other slots, on a key that it has not.
fn another_of_name(area: &mut Area, slot: usize, records: usize, random: &mut Random) {
    let others = name_with(area, slot, records, random);
    let name = area.name(others[0]).to_vec();
    let its_keys: Vec<usize> = others
        .iter()
        .map(|&other| area.record(other).key_slot)
        .collect();
    let mut keys = area.used_keys();
    keys.retain(|key| !its_keys.contains(key));
    area.put_name(slot, &name);
    move_name(area, slot, *random.pick(&keys) as u8);
}

/// The slot becomes the second of another's name, on the same key.
pub fn one_key_twice(area: &mut Area, slot: usize, random: &mut Random) {
    let other = name_with(area, slot, 1, random)[0];
    let name = area.name(other).to_vec();
    area.put_name(slot, &name);
    move_name(area, slot, area.record(other).key_slot as u8);
}

/// The slots of a name that has so many records, none of them in the slot.
fn name_with(area: &Area, slot: usize, records: usize, random: &mut Random) -> Vec<usize> {
    let slots_of = |other| area.slots_of(area.name(other));
    let names = area.used_names().into_iter().map(slots_of);
    let names: Vec<Vec<usize>> = names
        .filter(|slots| slots.len() == records && !slots.contains(&slot))
        .collect();
    random.pick(&names).clone()
}

/// One letter of the name is a capital, some are, or all.
pub fn name_in_capitals(area: &mut Area, slot: usize, random: &mut Random) {
    let name = spelling::with_capitals(area.name(slot).to_vec(), random);
    area.put_name(slot, &name);
}

/// Another slot's name with capitals: byte by byte no name comes twice.
pub fn name_in_two_spellings(area: &mut Area, slot: usize, random: &mut Random) {
    name_twice(area, slot, random);
    name_in_capitals(area, slot, random);
}

/// Another slot's name with its last byte changed, or with one byte more; no name of the pool ends in z.
pub fn name_alike(area: &mut Area, slot: usize, random: &mut Random) {
    let other = another(area.used_names(), slot, random);
    let mut name = area.name(other).to_vec();
    if name.len() == 253 || random.one_in(2) {
        name.pop();
    }
    name.push(b'z');
    area.put_name(slot, &name);
}

pub fn name_malformed(area: &mut Area, slot: usize, random: &mut Random) {
    let mut name = area.name(slot).to_vec();
    let (any, last) = (random.below(name.len()), name.len() - 1);
    match random.below(7) {
        0 => name[0] = b'-',
        1 => name[last] = b'-',
        2 => name[last] = b'.',
        3 => name[any] = *random.pick(b"_/: ~\x80\xff"),
        4 => name[any] = *random.pick(pool::BESIDE_LETTERS),
        5 => name[any] = 0,
        _ => name = vec![b'a'; 64],
    }
    area.put_name(slot, &name);
}
