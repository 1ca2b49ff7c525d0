//! Random sound tables of a given fill.

use crate::area::{Area, Record, KEY_SLOTS, LIMIT, LONGEST, NAME_SLOTS};
use crate::pool;
use crate::random::Random;
use tack::table::Edition;

/// What a table is to be like. There are at least as many name records as keys, and none without keys.
pub struct Fill {
    pub edition: Edition,
    /// Name records.
    pub names: usize,
    pub keys: usize,
    /// So many names have two records, for which edition two and two keys are needed.
    pub pairs: usize,
    pub latest: u32,
    /// A key slot that is to be used (yes) or free (no).
    pub key_slot: Option<(usize, bool)>,
    /// The same for a name slot.
    pub name_slot: Option<(usize, bool)>,
}

impl Fill {
    /// That many name records and keys in any slots; in edition two with as many pairs as it happens.
    pub fn of(edition: Edition, names: usize, keys: usize, random: &mut Random) -> Fill {
        let pairs = match edition {
            Edition::Two if keys > 1 => random.below(names / 2 + 1),
            _ => 0,
        };
        Fill {
            edition,
            names,
            keys,
            pairs,
            latest: latest(random),
            key_slot: None,
            name_slot: None,
        }
    }

    /// Which name a record is of: the first records are those of the pairs.
    fn name_of(&self, record: usize) -> usize {
        match record < 2 * self.pairs {
            true => record / 2,
            false => record - self.pairs,
        }
    }
}

/// Often at an edge.
fn latest(random: &mut Random) -> u32 {
    let any = random.up_to(LIMIT);
    *random.pick(&[0, 1, LONGEST, any, any, any, LIMIT - 1, LIMIT])
}

/// A sound table, with names and keys of one family each.
pub fn table(fill: &Fill, random: &mut Random) -> Area {
    let mut area = Area::of_edition(fill.edition);
    area.set_latest(fill.latest);
    let key_slots = slots(fill.keys, KEY_SLOTS, fill.key_slot, random);
    let family = random.below(pool::KEY_FAMILIES);
    let numbers = slots(fill.keys, 256, None, random);
    for (&slot, &number) in key_slots.iter().zip(&numbers) {
        area.put_key(slot, random.byte(), &pool::key(family, number));
    }
    let name_slots = slots(fill.names, NAME_SLOTS, fill.name_slot, random);
    let family = random.below(pool::NAME_FAMILIES);
    let numbers = slots(fill.names - fill.pairs, 200, None, random);
    let mut before = None;
    for (index, &slot) in name_slots.iter().enumerate() {
        let second = index % 2 == 1 && index < 2 * fill.pairs;
        let key_slot = key_slot(&key_slots, index, before.filter(|_| second), random);
        let name = pool::name(family, numbers[fill.name_of(index)]);
        area.put_pin(slot, record(key_slot, fill.latest, random), &name);
        before = Some(key_slot);
    }
    area
}

/// The key slot of a record, another than the one that it must not be. The first records give each key a name.
fn key_slot(key_slots: &[usize], record: usize, not: Option<usize>, random: &mut Random) -> usize {
    match key_slots.get(record) {
        Some(&key_slot) => key_slot,
        None => loop {
            let key_slot = *random.pick(key_slots);
            if Some(key_slot) != not {
                return key_slot;
            }
        },
    }
}

/// A record whose times are at their edges or anywhere between.
fn record(key_slot: usize, latest: u32, random: &mut Random) -> Record {
    let any = random.up_to(latest);
    let initial = *random.pick(&[0, any, latest]);
    let longest = latest + LONGEST - initial;
    let any = random.up_to(longest);
    let end = initial + *random.pick(&[0, any, latest - initial, longest]);
    Record {
        key_slot,
        initial,
        end: (!random.one_in(3)).then_some(end),
    }
}

/// Different slots in any order, with one that is or is not among them if that is wished.
fn slots(count: usize, of: usize, wish: Option<(usize, bool)>, random: &mut Random) -> Vec<usize> {
    let mut slots: Vec<usize> = (0..of).collect();
    for place in 0..of {
        slots.swap(place, place + random.below(of - place));
    }
    if let Some((slot, used)) = wish {
        let place = match used {
            true => random.below(count),
            false => count + random.below(of - count),
        };
        if let Some(now) = slots.iter().position(|&other| other == slot) {
            slots.swap(now, place);
        }
    }
    slots.truncate(count);
    slots
}
