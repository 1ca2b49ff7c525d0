//! A journal of edition two that has slots but never sees the table, kept beside
//! it.
//!
//! After every call the journal, written out, must be the table byte for byte,
//! and it must know the answer.

use second::{delete, inspect, start, Inspection};

use crate::calls::*;
use crate::calls_two::*;
use crate::capitals::any_spelling;
use crate::journal::Random;

const LONGEST: u64 = 43_200;

struct Row {
    name: String,
    key: u8,
    initial: u64,
    seen: Option<u64>,
}

impl Row {
    fn end(&self) -> Option<u64> {
        let seen = self.seen?;
        Some(seen + LONGEST.min(seen - self.initial))
    }

    fn is_live(&self, clock: u64) -> bool {
        self.end().is_some_and(|end| clock < end)
    }
}

/// One tack of a call.
struct Shown {
    key: u8,
    min_generation: u8,
    generation: u8,
    enabled: bool,
}

#[derive(Clone, Copy)]
struct Key {
    number: u8,
    floor: u8,
}

struct Journal {
    latest: u64,
    keys: [Option<Key>; 64],
    rows: [Option<Row>; 128],
}

impl Journal {
    fn empty() -> Journal {
        Journal {
            latest: 0,
            keys: [None; 64],
            rows: [const { None }; 128],
        }
    }

    /// The number, and whether a row was wanted and there was no room for it.
    fn judged(&mut self, clock: u64, name: &str, shown: &[Shown]) -> (u8, bool) {
        if shown.len() == 2 && shown[0].key == shown[1].key {
            return (24, false);
        }
        if self.raise_floors(shown).is_none() {
            return (22, false);
        }
        self.latest = clock;
        let rows = self.rows.iter().flatten();
        let live: Vec<u8> = rows
            .filter(|row| row.name == name && row.is_live(clock))
            .map(|row| row.key)
            .collect();
        let is_shown = |key: &u8| shown.iter().any(|shown| shown.key == *key);
        if !live.iter().all(is_shown) {
            return (2, false);
        }
        self.strike(clock, name, shown);
        let mut no_room = false;
        for shown in shown.iter().filter(|shown| shown.enabled) {
            no_room |= !self.saw(clock, name, shown);
        }
        (u8::from(!live.is_empty()), no_room)
    }

    /// Nothing is raised if one of the tacks is revoked.
    fn raise_floors(&mut self, shown: &[Shown]) -> Option<()> {
        let mut raised = self.keys;
        for shown in shown {
            let keys = raised.iter_mut().flatten();
            for key in keys.filter(|key| key.number == shown.key) {
                if shown.generation < key.floor {
                    return None;
                }
                key.floor = key.floor.max(shown.min_generation);
            }
        }
        self.keys = raised;
        Some(())
    }

    fn strike(&mut self, clock: u64, name: &str, shown: &[Shown]) {
        for place in &mut self.rows {
            let goes = |row: &mut Row| {
                let mut shown = shown.iter();
                row.name == name
                    && !row.is_live(clock)
                    && !shown.any(|shown| shown.key == row.key && shown.enabled)
            };
            place.take_if(goes);
        }
        self.strike_keys();
    }

    fn strike_keys(&mut self) {
        let rows = self.rows.iter().flatten();
        let standing: Vec<u8> = rows.map(|row| row.key).collect();
        for place in &mut self.keys {
            place.take_if(|key| !standing.contains(&key.number));
        }
    }

    /// No if a row was wanted and there was no room for it.
    fn saw(&mut self, clock: u64, name: &str, shown: &Shown) -> bool {
        let mut rows = self.rows.iter_mut().flatten();
        let is_sought = |row: &&mut Row| row.name == name && row.key == shown.key;
        if let Some(row) = rows.find(is_sought) {
            row.seen = Some(clock);
            return true;
        }
        let has_key = |place: &Option<Key>| place.is_some_and(|key| key.number == shown.key);
        let recorded = self.keys.iter().position(has_key);
        let free = self.keys.iter().position(Option::is_none);
        let row_slot = self.rows.iter().position(Option::is_none);
        let (Some(key_slot), Some(row_slot)) = (recorded.or(free), row_slot) else {
            return false;
        };
        self.keys[key_slot].get_or_insert(Key {
            number: shown.key,
            floor: shown.min_generation,
        });
        self.rows[row_slot] = Some(Row {
            name: name.to_string(),
            key: shown.key,
            initial: clock,
            seen: None,
        });
        true
    }

    /// Yes if there was a row.
    fn deleted(&mut self, name: &str) -> bool {
        let places = self.rows.iter_mut();
        let struck = places.filter_map(|place| place.take_if(|row| row.name == name));
        let any = struck.count() > 0;
        self.strike_keys();
        any
    }

    fn area(&self) -> Area {
        let mut area = empty_area_two();
        area[..4].copy_from_slice(&(self.latest as u32).to_be_bytes());
        for (slot, place) in self.keys.iter().enumerate() {
            let Some(Key { number, floor }) = place else {
                continue;
            };
            let at = 8 + 72 * slot;
            area[at..at + 2].copy_from_slice(&[1, *floor]);
            area[at + 8..at + 72].copy_from_slice(&key(*number));
        }
        for (slot, place) in self.rows.iter().enumerate() {
            if let Some(row) = place {
                let at = 4616 + 272 * slot;
                self.put_row(row, &mut area[at..at + 272]);
            }
        }
        area
    }

    fn put_row(&self, row: &Row, slot: &mut [u8]) {
        let is_key = |place: &Option<Key>| place.is_some_and(|key| key.number == row.key);
        let key_slot = self.keys.iter().position(is_key).expect("a key's record");
        let (name, end) = (row.name.as_bytes(), row.end());
        let present = u8::from(end.is_some());
        slot[..4].copy_from_slice(&[1, key_slot as u8, name.len() as u8, present]);
        slot[4..8].copy_from_slice(&(row.initial as u32).to_be_bytes());
        slot[8..12].copy_from_slice(&(end.unwrap_or(0) as u32).to_be_bytes());
        slot[16..16 + name.len()].copy_from_slice(name);
    }

    /// Initial and end of the first or the second row of a name.
    fn row(&self, name: &str, second: bool) -> Option<(u64, Option<u64>)> {
        let mut rows = self.rows.iter().flatten().filter(|row| row.name == name);
        let row = rows.nth(usize::from(second))?;
        Some((row.initial, row.end()))
    }
}

/// How a run is mixed; deletions and starts are one in so many.
struct Mix {
    names: u64,
    keys: u64,
    minutes: u64,
    one_deletion_in: u64,
    one_start_in: u64,
}

/// How often each number was answered, and no room.
#[derive(Default)]
struct Met {
    numbers: [usize; 32],
    no_room: usize,
    second_rows: usize,
}

fn agree_over_a_run(mix: &Mix, calls: usize) -> Met {
    let mut random = Random(0x9E37_79B9_7F4A_7C15);
    let mut journal = Journal::empty();
    let mut area = empty_area_two();
    let mut clock = 1000;
    let mut met = Met::default();
    for _ in 0..calls {
        clock += random.below(mix.minutes);
        let name = format!("host{}", random.below(mix.names));
        let spelling = any_spelling(&mut random, name.as_bytes());
        if random.below(mix.one_start_in) == 0 {
            assert_eq!(start(&mut area, true).number, 7);
            journal = Journal::empty();
        } else if random.below(mix.one_deletion_in) == 0 {
            let number = if journal.deleted(&name) { 3 } else { 4 };
            assert_eq!(delete(&mut area, &spelling).number, number);
            met.numbers[usize::from(number)] += 1;
        } else {
            let shown = any_tacks(mix, &mut random);
            let answer = journal.judged(clock, &name, &shown);
            assert_eq!(judge(clock, &spelling, &shown, &mut area), answer);
            met.numbers[usize::from(answer.0)] += 1;
            met.no_room += usize::from(answer.1);
        }
        assert!(area == journal.area());
        met.second_rows += usize::from(journal.row(&name, true).is_some());
        for second in [false, true] {
            let inspection = inspect(&area, &spelling, clock, second);
            shows_row(inspection, clock, journal.row(&name, second));
        }
    }
    met
}

#[track_caller]
fn shows_row(inspection: Inspection, clock: u64, row: Option<(u64, Option<u64>)>) {
    let Inspection {
        number,
        initial,
        end,
        minutes_left,
        ..
    } = inspection;
    let found = (number, u64::from(initial), u64::from(end), minutes_left);
    let expected = match row {
        None => (4, 0, 0, 0),
        Some((initial, None)) => (5, initial, 0, 0),
        Some((initial, Some(end))) => (6, initial, end, end as i64 - clock as i64),
    };
    assert_eq!(found, expected);
}

fn any_tacks(mix: &Mix, random: &mut Random) -> Vec<Shown> {
    let count = [0, 1, 1, 1, 2, 2, 2, 2][random.below(8) as usize];
    let mut tacks = Vec::new();
    for _ in 0..count {
        let min_generation = random.below(4) as u8;
        tacks.push(Shown {
            key: random.below(mix.keys) as u8,
            min_generation,
            generation: min_generation + random.below(3) as u8,
            enabled: random.below(4) != 0,
        });
    }
    tacks
}

fn judge(clock: u64, name: &[u8], shown: &[Shown], area: &mut [u8]) -> (u8, bool) {
    let mut call = CallTwo::at(clock, "");
    call.name = name.to_vec();
    if !shown.is_empty() {
        let each = |shown: &Shown| {
            let Shown {
                key: number,
                min_generation,
                generation,
                ..
            } = *shown;
            tack(key(number), min_generation, generation, u32::MAX)
        };
        let tacks: Vec<Vec<u8>> = shown.iter().map(each).collect();
        let bits = shown.iter().enumerate();
        let flags = bits
            .map(|(bit, shown)| u8::from(shown.enabled) << bit)
            .sum();
        call = call.with(extension_two(&tacks, flags));
    }
    let judgement = call.judge(area);
    (judgement.number, judgement.no_room)
}

#[track_caller]
fn met_all(met: &Met, numbers: &[usize]) {
    for number in numbers {
        assert!(met.numbers[*number] > 0, "{number} never came");
    }
}

#[test]
fn too_many_keys() {
    let mix = Mix {
        names: 90,
        keys: 200,
        minutes: 40,
        one_deletion_in: 50,
        one_start_in: 1000,
    };
    let met = agree_over_a_run(&mix, 1200);
    assert!(met.no_room > 50 && met.second_rows > 50);
    met_all(&met, &[0, 3, 4, 22, 24]);
}

#[test]
fn too_many_names() {
    let mix = Mix {
        names: 220,
        keys: 60,
        minutes: 40,
        one_deletion_in: 50,
        one_start_in: 2000,
    };
    let met = agree_over_a_run(&mix, 1200);
    assert!(met.no_room > 20 && met.second_rows > 50);
    met_all(&met, &[0, 3, 4, 22, 24]);
}

#[test]
fn few_names_and_keys() {
    let mix = Mix {
        names: 4,
        keys: 3,
        minutes: 3000,
        one_deletion_in: 40,
        one_start_in: 500,
    };
    let met = agree_over_a_run(&mix, 1500);
    assert!(met.no_room == 0 && met.second_rows > 50);
    met_all(&met, &[0, 1, 2, 3, 4, 22, 24]);
}
