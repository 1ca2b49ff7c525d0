//! The lent area: its bytes, and the rules that make it sound.
//!
//! Numbers are big-endian. The header holds the latest clock and the edition;
//! 64 key slots follow, then 128 name slots. A free slot is all zero, and so is
//! the empty table of edition one.

use crate::answer::{AREA_LENGTH_WRONG, TABLE_DAMAGED};
use crate::edition::Edition;
use crate::minutes::Minutes;
use crate::name::{is_well_formed_in_table, LONGEST_NAME};
use crate::pins::{PinTable, KEY_SLOTS, NAME_SLOTS};
use crate::records::{KeyRecord, KeySlot, NameRecord, NameSlot};

const HEADER_LENGTH: usize = 8;
const KEY_SLOT_LENGTH: usize = 72;
const NAME_SLOT_LENGTH: usize = 272;
const FIRST_NAME_SLOT: usize = HEADER_LENGTH + KEY_SLOTS * KEY_SLOT_LENGTH;

pub const AREA_LENGTH: usize = FIRST_NAME_SLOT + NAME_SLOTS * NAME_SLOT_LENGTH;

/// "Byte 4 is then 1, else 0, the rest zero."
const EDITION_AT: usize = 4;
/// Where the key stands in a key slot.
const KEY_AT: usize = 8;
/// Where the name, padded with zeros, stands in a name slot.
const NAME_AT: usize = 16;
const NAME_PADDED_END: usize = NAME_AT + LONGEST_NAME;

/// The rule of soundness that an area breaks.
#[derive(Debug, Clone, Copy, PartialEq, Eq)]
pub enum Damage {
    AreaLengthWrong,
    LatestAboveLimit,
    EditionNeitherZeroNorOne,
    HeaderNotZero,
    KeyUsedNeitherZeroNorOne,
    FreeKeySlotNotZero,
    KeyFillNotZero,
    KeyTwice,
    KeyWithoutName,
    NameUsedNeitherZeroNorOne,
    FreeNameSlotNotZero,
    NameFillNotZero,
    NameMalformed,
    NamePaddingNotZero,
    NameSlotEndNotZero,
    /// In edition one.
    NameTwice,
    /// In edition two, as the next.
    NameThrice,
    NameTwiceOnOneKey,
    NameOnFreeKeySlot,
    InitialAfterLatest,
    EndPresentNeitherZeroNorOne,
    AbsentEndNotZero,
    EndBeforeInitial,
    EndTooLate,
}

impl Damage {
    /// The number of the refusal.
    pub fn number(self) -> u8 {
        match self {
            Damage::AreaLengthWrong => AREA_LENGTH_WRONG,
            _ => TABLE_DAMAGED,
        }
    }
}

pub fn is_sound(area: &[u8]) -> bool {
    parse(area).is_ok()
}

/// The records in the area, or the first rule found broken.
pub fn parse(area: &[u8]) -> Result<PinTable, Damage> {
    require(area.len() == AREA_LENGTH, Damage::AreaLengthWrong)?;
    let (header, slots) = area.split_at(HEADER_LENGTH);
    let (key_slots, name_slots) = slots.split_at(FIRST_NAME_SLOT - HEADER_LENGTH);

    let mut table = parse_header(header)?;
    for (index, slot) in key_slots.chunks_exact(KEY_SLOT_LENGTH).enumerate() {
        parse_key_slot(&mut table, KeySlot(index), slot)?;
    }
    for (index, slot) in name_slots.chunks_exact(NAME_SLOT_LENGTH).enumerate() {
        parse_name_slot(&mut table, NameSlot(index), slot)?;
    }
    require(table.every_key_has_a_name(), Damage::KeyWithoutName)?;
    Ok(table)
}

/// The table without its records.
fn parse_header(header: &[u8]) -> Result<PinTable, Damage> {
    let latest = field(header, 0);
    require(latest <= Minutes::LAST_CLOCK, Damage::LatestAboveLimit)?;
    let edition = Edition::from_byte(header[EDITION_AT]);
    let edition = edition.ok_or(Damage::EditionNeitherZeroNorOne)?;
    require(is_zero(&header[EDITION_AT + 1..]), Damage::HeaderNotZero)?;
    let mut table = PinTable::empty_in(edition);
    table.set_latest(latest);
    Ok(table)
}

fn parse_key_slot(table: &mut PinTable, index: KeySlot, slot: &[u8]) -> Result<(), Damage> {
    match slot[0] {
        0 => return require(is_zero(slot), Damage::FreeKeySlotNotZero),
        1 => {}
        _ => return Err(Damage::KeyUsedNeitherZeroNorOne),
    }
    require(is_zero(&slot[2..KEY_AT]), Damage::KeyFillNotZero)?;
    let mut key = [0; 64];
    key.copy_from_slice(&slot[KEY_AT..]);
    require(table.put_key(index, key, slot[1]), Damage::KeyTwice)
}

fn parse_name_slot(table: &mut PinTable, index: NameSlot, slot: &[u8]) -> Result<(), Damage> {
    match slot[0] {
        0 => return require(is_zero(slot), Damage::FreeNameSlotNotZero),
        1 => {}
        _ => return Err(Damage::NameUsedNeitherZeroNorOne),
    }
    let key_slot = KeySlot(usize::from(slot[1]));
    let has_key = table.key_record(key_slot).is_some();
    require(has_key, Damage::NameOnFreeKeySlot)?;
    require(is_zero(&slot[12..NAME_AT]), Damage::NameFillNotZero)?;
    let name = parse_name(slot)?;
    let (initial, end) = parse_active_period(slot, table.latest())?;
    let record = NameRecord {
        slot: index,
        key_slot,
        initial,
        end,
    };
    if table.put_name(name, record) {
        Ok(())
    } else {
        Err(one_record_too_many(table, name, key_slot))
    }
}

/// Why the name takes no further record with this key.
fn one_record_too_many(table: &PinTable, name: &[u8], key_slot: KeySlot) -> Damage {
    let mut records = table.name_records();
    let stands_on_key =
        |(other, record): (&[u8], &NameRecord)| other == name && record.key_slot == key_slot;
    match table.edition() {
        Edition::One => Damage::NameTwice,
        Edition::Two if records.any(stands_on_key) => Damage::NameTwiceOnOneKey,
        Edition::Two => Damage::NameThrice,
    }
}

/// Nothing is folded here: a capital in a table is damage. The length byte can
/// point past the padding, but no such name is well-formed.
fn parse_name(slot: &[u8]) -> Result<&[u8], Damage> {
    let (name, rest) = slot[NAME_AT..].split_at(usize::from(slot[2]));
    require(is_well_formed_in_table(name), Damage::NameMalformed)?;
    let (padding, slot_end) = rest.split_at(LONGEST_NAME - name.len());
    require(is_zero(padding), Damage::NamePaddingNotZero)?;
    require(is_zero(slot_end), Damage::NameSlotEndNotZero)?;
    Ok(name)
}

fn parse_active_period(slot: &[u8], latest: Minutes) -> Result<(Minutes, Option<Minutes>), Damage> {
    let (initial, end) = (field(slot, 4), field(slot, 8));
    require(initial <= latest, Damage::InitialAfterLatest)?;
    match slot[3] {
        0 => {
            require(end == Minutes::ZERO, Damage::AbsentEndNotZero)?;
            Ok((initial, None))
        }
        1 => {
            let last_end = latest.plus(Minutes::LONGEST_ACTIVE_PERIOD);
            require(end >= initial, Damage::EndBeforeInitial)?;
            require(end <= last_end, Damage::EndTooLate)?;
            Ok((initial, Some(end)))
        }
        _ => Err(Damage::EndPresentNeitherZeroNorOne),
    }
}

fn require(holds: bool, damage: Damage) -> Result<(), Damage> {
    if holds {
        Ok(())
    } else {
        Err(damage)
    }
}

/// Looks at every byte without leaving early, which is quicker on wide machines.
fn is_zero(bytes: &[u8]) -> bool {
    bytes.iter().fold(0, |seen, byte| seen | byte) == 0
}

fn field(slot: &[u8], at: usize) -> Minutes {
    Minutes::from_field([slot[at], slot[at + 1], slot[at + 2], slot[at + 3]])
}

impl PinTable {
    /// Writes the whole area; an area of another length is left alone.
    pub fn write(&self, area: &mut [u8]) {
        if area.len() != AREA_LENGTH {
            return;
        }
        area.fill(0);
        area[..EDITION_AT].copy_from_slice(&self.latest().to_field());
        area[EDITION_AT] = self.edition().to_byte();
        let (_, slots) = area.split_at_mut(HEADER_LENGTH);
        let (key_slots, name_slots) = slots.split_at_mut(FIRST_NAME_SLOT - HEADER_LENGTH);
        for (KeySlot(index), record) in self.key_records() {
            let start = index * KEY_SLOT_LENGTH;
            write_key_slot(record, &mut key_slots[start..start + KEY_SLOT_LENGTH]);
        }
        for (name, record) in self.name_records() {
            let start = record.slot.0 * NAME_SLOT_LENGTH;
            write_name_slot(
                name,
                record,
                &mut name_slots[start..start + NAME_SLOT_LENGTH],
            );
        }
    }
}

fn write_key_slot(record: &KeyRecord, slot: &mut [u8]) {
    slot[0] = 1;
    slot[1] = record.floor;
    slot[KEY_AT..].copy_from_slice(&record.key);
}

/// A key slot number and a name length are below 256 in every table.
fn write_name_slot(name: &[u8], record: &NameRecord, slot: &mut [u8]) {
    slot[0] = 1;
    slot[1] = record.key_slot.0 as u8;
    slot[2] = name.len() as u8;
    slot[3] = u8::from(record.end.is_some());
    slot[4..8].copy_from_slice(&record.initial.to_field());
    let end = record.end.unwrap_or(Minutes::ZERO);
    slot[8..12].copy_from_slice(&end.to_field());
    slot[NAME_AT..NAME_PADDED_END][..name.len()].copy_from_slice(name);
}
