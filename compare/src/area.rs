//! The bytes of a pin table by slots, as the comparison builds, reads and damages them.

use crate::spelling;
use tack::table::Edition;

pub const LENGTH: usize = tack::table::AREA_LENGTH;
pub const KEY_SLOTS: usize = 64;
pub const NAME_SLOTS: usize = 128;
/// The last clock.
pub const LIMIT: u32 = 4_294_924_095;
/// The longest active period.
pub const LONGEST: u32 = 43_200;

/// Where the edition stands.
const EDITION: usize = 4;
const FIRST_NAME: usize = 4616;
/// The bytes of a name slot.
const NAME_SLOT: usize = 272;

pub type Key = [u8; 64];

/// What a name slot says besides the name.
#[derive(Clone, Copy, PartialEq, Eq)]
pub struct Record {
    pub key_slot: usize,
    pub initial: u32,
    pub end: Option<u32>,
}

impl Record {
    /// At its end a pin is no longer active.
    pub fn is_active(&self, clock: u64) -> bool {
        self.end.is_some_and(|end| clock < u64::from(end))
    }
}

/// A name record, where it stands, and the key that it stands on.
#[derive(Clone, Copy, PartialEq, Eq)]
pub struct Pin {
    pub name_slot: usize,
    pub record: Record,
    pub key: Key,
}

/// An area of the right length. Its readers want a sound table; its writers make any.
#[derive(Clone)]
pub struct Area {
    pub bytes: Vec<u8>,
}

impl Area {
    /// The empty table of edition one.
    pub fn empty() -> Area {
        Area {
            bytes: vec![0; LENGTH],
        }
    }

    /// The empty table of an edition.
    pub fn of_edition(edition: Edition) -> Area {
        let mut area = Area::empty();
        area.bytes[EDITION] = edition_byte(edition);
        area
    }

    pub fn edition(&self) -> Edition {
        match self.bytes[EDITION] {
            0 => Edition::One,
            _ => Edition::Two,
        }
    }

    /// Byte 4, whether it is an edition or not.
    pub fn set_edition_byte(&mut self, byte: u8) {
        self.bytes[EDITION] = byte;
    }

    pub fn latest(&self) -> u32 {
        number(&self.bytes[..4])
    }

    pub fn set_latest(&mut self, latest: u32) {
        self.bytes[..4].copy_from_slice(&latest.to_be_bytes());
    }

    pub fn key_slot(&self, slot: usize) -> &[u8] {
        &self.bytes[8 + 72 * slot..][..72]
    }

    pub fn key_slot_mut(&mut self, slot: usize) -> &mut [u8] {
        &mut self.bytes[8 + 72 * slot..][..72]
    }

    pub fn name_slot(&self, slot: usize) -> &[u8] {
        &self.bytes[FIRST_NAME + NAME_SLOT * slot..][..NAME_SLOT]
    }

    pub fn name_slot_mut(&mut self, slot: usize) -> &mut [u8] {
        &mut self.bytes[FIRST_NAME + NAME_SLOT * slot..][..NAME_SLOT]
    }

    pub fn used_keys(&self) -> Vec<usize> {
        (0..KEY_SLOTS)
            .filter(|&slot| self.key_slot(slot)[0] == 1)
            .collect()
    }

    pub fn used_names(&self) -> Vec<usize> {
        (0..NAME_SLOTS)
            .filter(|&slot| self.name_slot(slot)[0] == 1)
            .collect()
    }

    pub fn key(&self, slot: usize) -> Key {
        let mut key = [0; 64];
        key.copy_from_slice(&self.key_slot(slot)[8..]);
        key
    }

    pub fn floor(&self, key: &Key) -> Option<u8> {
        self.find_key(key).map(|slot| self.key_slot(slot)[1])
    }

    pub fn find_key(&self, key: &Key) -> Option<usize> {
        (0..KEY_SLOTS).find(|&slot| self.key_slot(slot)[0] == 1 && self.key_slot(slot)[8..] == *key)
    }

    pub fn name(&self, slot: usize) -> &[u8] {
        name_in(self.name_slot(slot))
    }

    /// The slot of a name in any spelling, the first where it has two.
    pub fn find_name(&self, name: &[u8]) -> Option<usize> {
        self.slots_of(name).first().copied()
    }

    /// All slots of a name in any spelling.
    pub fn slots_of(&self, name: &[u8]) -> Vec<usize> {
        let name = spelling::small(name);
        let is_of_name = |&slot: &usize| self.name_slot(slot)[0] == 1 && self.name(slot) == name;
        (0..NAME_SLOTS).filter(is_of_name).collect()
    }

    /// The pins of a name in any spelling, in the order of their slots.
    pub fn pins_of(&self, name: &[u8]) -> Vec<Pin> {
        let slots = self.slots_of(name).into_iter();
        slots.map(|slot| self.pin(slot)).collect()
    }

    fn pin(&self, name_slot: usize) -> Pin {
        let record = self.record(name_slot);
        Pin {
            name_slot,
            record,
            key: self.key(record.key_slot),
        }
    }

    pub fn record(&self, slot: usize) -> Record {
        let bytes = self.name_slot(slot);
        Record {
            key_slot: usize::from(bytes[1]),
            initial: number(&bytes[4..8]),
            end: (bytes[3] == 1).then(|| number(&bytes[8..12])),
        }
    }

    pub fn put_key(&mut self, slot: usize, floor: u8, key: &Key) {
        let bytes = self.key_slot_mut(slot);
        bytes.fill(0);
        bytes[..2].copy_from_slice(&[1, floor]);
        bytes[8..].copy_from_slice(key);
    }

    /// A record, and the name that it is of.
    pub fn put_pin(&mut self, slot: usize, record: Record, name: &[u8]) {
        self.put_record(slot, record);
        self.put_name(slot, name);
    }

    pub fn put_record(&mut self, slot: usize, record: Record) {
        let bytes = self.name_slot_mut(slot);
        bytes[0] = 1;
        bytes[1] = record.key_slot as u8;
        bytes[3] = u8::from(record.end.is_some());
        bytes[4..8].copy_from_slice(&record.initial.to_be_bytes());
        bytes[8..12].copy_from_slice(&record.end.unwrap_or(0).to_be_bytes());
    }

    pub fn put_name(&mut self, slot: usize, name: &[u8]) {
        let bytes = self.name_slot_mut(slot);
        bytes[2] = name.len() as u8;
        bytes[16..269].fill(0);
        bytes[16..][..name.len()].copy_from_slice(name);
    }
}

/// Byte 4 of a table of the edition.
pub fn edition_byte(edition: Edition) -> u8 {
    match edition {
        Edition::One => 0,
        Edition::Two => 1,
    }
}

/// The edition that this one is not.
pub fn other(edition: Edition) -> Edition {
    match edition {
        Edition::One => Edition::Two,
        Edition::Two => Edition::One,
    }
}

/// The first byte in which two areas of one length differ.
pub fn first_difference(one: &[u8], two: &[u8]) -> Option<usize> {
    match one == two {
        true => None,
        false => one.iter().zip(two).position(|(one, two)| one != two),
    }
}

/// A byte of an area in words; a floor by its name, since 23 changes one alone.
pub fn place(at: usize) -> String {
    let in_keys = at.checked_sub(8).map(|at| (at / 72, at % 72));
    match in_keys {
        Some((slot, 1)) if slot < KEY_SLOTS => format!("the floor of key slot {slot} (byte {at})"),
        _ => format!("byte {at}"),
    }
}

/// The first used name slot of an area, lent as bytes, whose name has a capital.
pub fn capital(area: &[u8]) -> Option<usize> {
    let mut slots = area.get(FIRST_NAME..)?.chunks_exact(NAME_SLOT);
    slots.position(|slot| slot[0] == 1 && spelling::has_capital(name_in(slot)))
}

/// The name in the bytes of a name slot.
fn name_in(slot: &[u8]) -> &[u8] {
    &slot[16..][..usize::from(slot[2])]
}

fn number(bytes: &[u8]) -> u32 {
    bytes
        .iter()
        .fold(0, |number, &byte| number << 8 | u32::from(byte))
}
