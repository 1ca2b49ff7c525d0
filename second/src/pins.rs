//! The pin store: key records, name records and their changes.
//!
//! A pin is a name record together with its key record. Every name record
//! stands on a key record, and a key record goes with its last name. Only this
//! package changes a table, so every table there is can be written as an area.

use std::collections::hash_map::{Entry, HashMap};

use crate::edition::Edition;
use crate::minutes::Minutes;
use crate::name::FoldedName;
use crate::records::{KeyRecord, KeySlot, NameRecord, NameRecords, NameSlot, PublicKey};

pub const KEY_SLOTS: usize = 64;
pub const NAME_SLOTS: usize = 128;

/// "Makes one if the name has fewer than two."
pub(crate) const MOST_PINS_OF_A_NAME: usize = 2;

/// A new pin found no slot; nothing was changed.
#[derive(Debug, Clone, Copy, PartialEq, Eq)]
pub(crate) struct NoRoom;

#[derive(Debug, Clone, PartialEq, Eq)]
pub struct PinTable {
    edition: Edition,
    latest: Minutes,
    keys: Vec<Option<KeyRecord>>,
    key_slots: HashMap<PublicKey, KeySlot>,
    names: HashMap<Vec<u8>, NameRecords>,
}

/// The slots of a new pin: a free one for its name, and its key's.
#[derive(Clone, Copy)]
struct PinSlots {
    name: NameSlot,
    key: KeySlot,
}

impl PinTable {
    /// The empty table of edition one, whose area is all zero.
    pub fn empty() -> PinTable {
        PinTable::empty_in(Edition::One)
    }

    pub fn empty_in(edition: Edition) -> PinTable {
        PinTable {
            edition,
            latest: Minutes::ZERO,
            keys: vec![None; KEY_SLOTS],
            key_slots: HashMap::with_capacity(KEY_SLOTS),
            names: HashMap::with_capacity(NAME_SLOTS),
        }
    }

    pub fn edition(&self) -> Edition {
        self.edition
    }

    pub fn latest(&self) -> Minutes {
        self.latest
    }

    pub(crate) fn set_latest(&mut self, clock: Minutes) {
        self.latest = clock;
    }

    pub fn key_record(&self, slot: KeySlot) -> Option<&KeyRecord> {
        self.keys.get(slot.0)?.as_ref()
    }

    pub fn key_records(&self) -> impl Iterator<Item = (KeySlot, &KeyRecord)> {
        let slots = self.keys.iter().enumerate();
        slots.filter_map(|(slot, record)| Some((KeySlot(slot), record.as_ref()?)))
    }

    /// In no order; a name with two records comes twice.
    pub fn name_records(&self) -> impl Iterator<Item = (&[u8], &NameRecord)> {
        let names = self.names.iter();
        names.flat_map(|(name, records)| {
            let records = records.iter();
            records.map(move |record| (name.as_slice(), record))
        })
    }

    /// The first pin of a name in any spelling, in edition one its only pin:
    /// the name record and the key record it stands on.
    pub fn pin(&self, name: &[u8]) -> Option<(&NameRecord, &KeyRecord)> {
        self.pin_of(&FoldedName::of(name)?)
    }

    /// The same for a call that has folded its name already.
    pub(crate) fn pin_of(&self, name: &FoldedName) -> Option<(&NameRecord, &KeyRecord)> {
        self.pins_of(name).next()
    }

    /// All pins of a name, in slot order.
    pub(crate) fn pins_of(
        &self,
        name: &FoldedName,
    ) -> impl Iterator<Item = (&NameRecord, &KeyRecord)> {
        let records = self.names.get(name.bytes()).into_iter();
        let records = records.flat_map(NameRecords::iter);
        records.filter_map(|record| Some((record, self.key_record(record.key_slot)?)))
    }

    /// The generations of a key below this number are revoked.
    pub fn floor(&self, key: &PublicKey) -> Option<u8> {
        let slot = self.key_slots.get(key)?;
        Some(self.key_record(*slot)?.floor)
    }

    /// Whether a tack with this key and generation is revoked.
    pub(crate) fn revokes(&self, key: &PublicKey, generation: u8) -> bool {
        self.floor(key).is_some_and(|floor| generation < floor)
    }

    /// A floor never falls.
    pub(crate) fn raise_floor(&mut self, key: &PublicKey, min_generation: u8) {
        let Some(slot) = self.key_slots.get(key) else {
            return;
        };
        if let Some(record) = &mut self.keys[slot.0] {
            record.floor = record.floor.max(min_generation);
        }
    }

    /// Activates the name's pin to the key, or extends its active period.
    pub(crate) fn activate(&mut self, name: &FoldedName, key: &PublicKey, clock: Minutes) {
        let key_slot = self.key_slots.get(key).copied();
        let records = self.names.get_mut(name.bytes()).into_iter();
        for record in records.flat_map(NameRecords::iter_mut) {
            if Some(record.key_slot) == key_slot {
                record.end = Some(clock.active_period_end(record.initial));
            }
        }
    }

    /// Edition one: makes a pin of the name to a key other than its present one,
    /// which it replaces.
    ///
    /// Both slots are chosen before anything changes, so that without room
    /// the old record and its key stay.
    pub(crate) fn create(
        &mut self,
        name: &FoldedName,
        key: &PublicKey,
        min_generation: u8,
        clock: Minutes,
    ) -> Result<(), NoRoom> {
        let replaced = self.pin_of(name).map(|(record, _)| *record);
        let slots = self.slots_for(key, replaced)?;
        self.remove_name(name);
        self.put_pin(name, slots, key, min_generation, clock);
        Ok(())
    }

    /// Edition two: makes a pin of the name to a key other than its present one,
    /// which stays beside it.
    pub(crate) fn add(
        &mut self,
        name: &FoldedName,
        key: &PublicKey,
        min_generation: u8,
        clock: Minutes,
    ) -> Result<(), NoRoom> {
        let slots = self.slots_for(key, None)?;
        self.put_pin(name, slots, key, min_generation, clock);
        Ok(())
    }

    /// A new pin has no end. A recorded key keeps its floor.
    fn put_pin(
        &mut self,
        name: &FoldedName,
        slots: PinSlots,
        key: &PublicKey,
        min_generation: u8,
        clock: Minutes,
    ) {
        if self.key_record(slots.key).is_none() {
            self.put_key(slots.key, *key, min_generation);
        }
        let record = NameRecord {
            slot: slots.name,
            key_slot: slots.key,
            initial: clock,
            end: None,
        };
        self.put_name(name.bytes(), record);
    }

    /// Removes all records of a name; yes if there was one.
    pub(crate) fn remove_name(&mut self, name: &FoldedName) -> bool {
        let Some(records) = self.names.remove(name.bytes()) else {
            return false;
        };
        for record in records.iter() {
            self.release(record.key_slot);
        }
        true
    }

    /// Removes a name's pins that are not kept; "keys left without names" go
    /// as well.
    pub(crate) fn retain_pins(
        &mut self,
        name: &FoldedName,
        keep: impl Fn(&NameRecord, &KeyRecord) -> bool,
    ) {
        let pins = self.pins_of(name);
        let going = pins.filter(|(record, key_record)| !keep(record, key_record));
        let going: Vec<KeySlot> = going.map(|(record, _)| record.key_slot).collect();
        for key_slot in going {
            self.remove_record(name, key_slot);
        }
    }

    /// Removes a name's record with this key.
    fn remove_record(&mut self, name: &FoldedName, key_slot: KeySlot) {
        let Some(records) = self.names.get_mut(name.bytes()) else {
            return;
        };
        if !records.retain(|record| record.key_slot != key_slot) {
            self.names.remove(name.bytes());
        }
        self.release(key_slot);
    }

    /// Removes a key's record, if any, with all its names.
    pub(crate) fn remove_key(&mut self, key: &PublicKey) {
        if let Some(slot) = self.key_slots.remove(key) {
            self.keys[slot.0] = None;
            let names = &mut self.names;
            names.retain(|_, records| records.retain(|record| record.key_slot != slot));
        }
    }

    /// Puts a key record into a free slot; no if the key had one already.
    pub(crate) fn put_key(&mut self, slot: KeySlot, key: PublicKey, floor: u8) -> bool {
        self.keys[slot.0] = Some(KeyRecord {
            key,
            floor,
            names: 0,
        });
        self.key_slots.insert(key, slot).is_none()
    }

    /// Puts a name record on a used key slot; no if the edition allows the name
    /// no such record beside those that it has. The name is well-formed in a
    /// table.
    pub(crate) fn put_name(&mut self, name: &[u8], record: NameRecord) -> bool {
        match self.names.entry(name.to_vec()) {
            Entry::Vacant(place) => {
                place.insert(NameRecords::one(record));
            }
            Entry::Occupied(_) if self.edition == Edition::One => return false,
            Entry::Occupied(mut place) => match place.get().with(record) {
                Some(records) => {
                    place.insert(records);
                }
                None => return false,
            },
        }
        if let Some(key_record) = &mut self.keys[record.key_slot.0] {
            key_record.names += 1;
        }
        true
    }

    pub(crate) fn every_key_has_a_name(&self) -> bool {
        self.key_records().all(|(_, record)| record.names > 0)
    }

    /// Takes one name off a key; the key goes if no name is left on it.
    fn release(&mut self, slot: KeySlot) {
        let place = &mut self.keys[slot.0];
        if let Some(record) = place {
            record.names -= 1;
            if record.names == 0 {
                self.key_slots.remove(&record.key);
                *place = None;
            }
        }
    }

    /// A replaced record keeps its name slot. A recorded key keeps its slot.
    fn slots_for(&self, key: &PublicKey, replaced: Option<NameRecord>) -> Result<PinSlots, NoRoom> {
        let name = match replaced {
            Some(record) => record.slot,
            None => self.lowest_free_name_slot().ok_or(NoRoom)?,
        };
        let key = match self.key_slots.get(key) {
            Some(slot) => *slot,
            None => self.lowest_free_key_slot(replaced).ok_or(NoRoom)?,
        };
        Ok(PinSlots { name, key })
    }

    fn lowest_free_name_slot(&self) -> Option<NameSlot> {
        let mut used = [false; NAME_SLOTS];
        for (_, record) in self.name_records() {
            used[record.slot.0] = true;
        }
        used.iter().position(|used| !used).map(NameSlot)
    }

    /// Counted as if the replaced record, and its key if left without a name,
    /// had gone already.
    fn lowest_free_key_slot(&self, replaced: Option<NameRecord>) -> Option<KeySlot> {
        let leaving = replaced.map(|record| record.key_slot);
        let is_free = |slot: &KeySlot| match self.key_record(*slot) {
            Some(record) => Some(*slot) == leaving && record.names == 1,
            None => true,
        };
        (0..KEY_SLOTS).map(KeySlot).find(is_free)
    }
}
