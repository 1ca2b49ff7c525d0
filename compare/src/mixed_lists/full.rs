//! Full and nearly full tables of edition two, each with a connection that asks for up to two records.

use crate::area::{Area, Key, Record, KEY_SLOTS, NAME_SLOTS};
use crate::call::{Call, ConnectionTwo};
use crate::make::{generation_3, Pins};
use crate::wire;
use tack::table::Edition;

/// When the records of the tables were made, and the clock of the connections.
const MADE: u32 = 1_000;
const CLOCK: u32 = 60_000;

const NAME: &[u8] = b"own.example";

/// The slots that are free where one is, or two are.
const FREE_NAMES: [usize; 2] = [100, 5];
const FREE_KEYS: [usize; 2] = [40, 7];

/// The records of the connection's name.
#[derive(Clone, Copy, PartialEq, Eq)]
enum Own {
    None,
    OnOwnKey,
    /// Another name has the key too.
    OnSharedKey,
    /// On a key of its own, and active.
    Active,
    OnTwoOwnKeys,
}

const OWN: [Own; 5] = [
    Own::None,
    Own::OnOwnKey,
    Own::OnSharedKey,
    Own::Active,
    Own::OnTwoOwnKeys,
];

impl Own {
    fn records(self) -> usize {
        match self {
            Own::None => 0,
            Own::OnTwoOwnKeys => 2,
            _ => 1,
        }
    }

    /// How many keys no other name has.
    fn keys(self) -> usize {
        match self {
            Own::OnSharedKey => 0,
            _ => self.records(),
        }
    }
}

/// Every case: up to two slots of each sort left, every sort of own records, own, recorded and new keys shown, all flags.
pub fn cases() -> impl Iterator<Item = (Area, Call)> {
    let fills =
        (126..=NAME_SLOTS).flat_map(|names| (62..=KEY_SLOTS).map(move |keys| (names, keys)));
    fills.flat_map(|(names, keys)| {
        OWN.into_iter().flat_map(move |own| {
            let area = table(names, keys, own);
            connections(own, keys).map(move |connection| (area.clone(), connection))
        })
    })
}

/// The records of the name stand in the middle of the others.
fn table(names: usize, keys: usize, own: Own) -> Area {
    let mut area = Area::of_edition(Edition::Two);
    area.set_latest(CLOCK);
    let key_slots = used(keys, KEY_SLOTS, &FREE_KEYS);
    for (number, &slot) in key_slots.iter().enumerate() {
        area.put_key(slot, 3, &(Pins::ALIKE.key)(number));
    }
    let mut name_slots = used(names, NAME_SLOTS, &FREE_NAMES);
    let own_slots: Vec<usize> = name_slots.drain(50..50 + own.records()).collect();
    let record = |&key_slot: &usize, end| Record {
        key_slot,
        initial: MADE,
        end,
    };
    let end = (own == Own::Active).then_some(CLOCK + 100);
    for (slot, key_slot) in own_slots.into_iter().zip(&key_slots) {
        area.put_pin(slot, record(key_slot, end), NAME);
    }
    let others = name_slots.into_iter();
    let keys_of_others = key_slots[own.keys()..].iter().cycle();
    for (number, (slot, key_slot)) in others.zip(keys_of_others).enumerate() {
        let name = (Pins::ALIKE.name)(number);
        area.put_pin(slot, record(key_slot, None), &name);
    }
    area
}

/// So many slots, without the first of the free ones.
fn used(count: usize, of: usize, free: &[usize]) -> Vec<usize> {
    let free = &free[..of - count];
    (0..of).filter(|slot| !free.contains(slot)).collect()
}

/// Every two different keys in every order, with all flags that enable one.
fn connections(own: Own, keys: usize) -> impl Iterator<Item = Call> {
    let (recorded, new) = ([keys - 1, keys - 2], [200, 201]);
    let numbers = (0..own.records()).chain(recorded).chain(new);
    let shown: Vec<Key> = numbers.map(Pins::ALIKE.key).collect();
    let mut connections = vec![];
    for first in &shown {
        for second in shown.iter().filter(|second| *second != first) {
            for flags in 1..=3 {
                let tacks = [first, second].map(|key| generation_3(*key));
                let extension = wire::extension_two(&tacks, flags);
                let connection = ConnectionTwo::at(CLOCK, NAME).with(extension);
                connections.push(Call::JudgeTwo(connection));
            }
        }
    }
    connections.into_iter()
}

#[test]
fn the_tables_are_sound_and_as_full_as_asked() {
    for own in OWN {
        for (names, keys) in [(126, 64), (128, 62), (127, 63), (128, 64)] {
            let area = table(names, keys, own);
            assert!(second::is_sound(&area.bytes));
            assert_eq!(area.used_names().len(), names);
            assert_eq!(area.used_keys().len(), keys);
            assert_eq!(area.slots_of(NAME).len(), own.records());
        }
    }
}
