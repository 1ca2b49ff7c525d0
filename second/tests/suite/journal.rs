//! A plain journal of the calls, which never sees the table, kept beside it.
//!
//! Row for row the journal and the table must agree, and so must "no room".
//! The journal reads every name folded; the calls have any spelling. It also
//! keeps the floors, which calls answered 23 raise as well as verdicts. Each call
//! is by the default or in the old way, "changed freely between calls".

use std::collections::{HashMap, HashSet};

use second::{delete, inspect, parse, PinTable};

use crate::calls::*;
use crate::capitals::{any_spelling, respelled};

const LONGEST: u64 = 43_200;

struct Row {
    key: u8,
    initial: u64,
    seen: Option<u64>,
}

impl Row {
    fn end(&self) -> Option<u64> {
        let seen = self.seen?;
        Some(seen + LONGEST.min(seen - self.initial))
    }
}

#[derive(Default)]
struct Journal {
    rows: HashMap<String, Row>,
    floors: HashMap<u8, u8>,
}

/// What one call showed: the key and min_generation of its tack; and whether it
/// asked for the old way.
struct Shown {
    key: u8,
    min_generation: u8,
    activation: bool,
    expired: bool,
    learn_disabled: bool,
}

impl Journal {
    /// Yes if a row was wanted and there was no room for it.
    fn judged(&mut self, clock: u64, name: &str, shown: Option<&Shown>, broken: &[u8]) -> bool {
        let no_room = shown.is_some_and(|shown| self.learn(clock, name, shown));
        self.rows.retain(|_, row| !broken.contains(&row.key));
        self.forget_floors();
        no_room
    }

    fn raise_floor(&mut self, shown: &Shown) {
        if let Some(floor) = self.floors.get_mut(&shown.key) {
            *floor = shown.min_generation.max(*floor);
        }
    }

    fn learn(&mut self, clock: u64, name: &str, shown: &Shown) -> bool {
        self.raise_floor(shown);
        if let Some(row) = self.rows.get_mut(name) {
            if row.key == shown.key {
                if shown.activation {
                    row.seen = Some(clock);
                }
                return false;
            }
            if row.end().is_some_and(|end| clock < end) {
                return false;
            }
        }
        if !shown.activation && !shown.learn_disabled {
            return false;
        }
        if !self.has_room(name, shown.key) {
            return true;
        }
        let row = Row {
            key: shown.key,
            initial: clock,
            seen: None,
        };
        self.rows.insert(name.to_string(), row);
        self.floors.entry(shown.key).or_insert(shown.min_generation);
        false
    }

    /// Counted without the old row of the name.
    fn has_room(&self, name: &str, key: u8) -> bool {
        let others = self.rows.iter().filter(|(other, _)| *other != name);
        let keys: Vec<u8> = others.map(|(_, row)| row.key).collect();
        let different: HashSet<u8> = keys.iter().copied().collect();
        keys.len() < 128 && (different.len() < 64 || different.contains(&key))
    }

    fn forget_floors(&mut self) {
        let standing: HashSet<u8> = self.rows.values().map(|row| row.key).collect();
        self.floors.retain(|key, _| standing.contains(key));
    }

    fn agrees(&self, table: &PinTable) {
        assert_eq!(table.name_records().count(), self.rows.len());
        assert_eq!(table.key_records().count(), self.floors.len());
        for (name, row) in &self.rows {
            let (name_record, key_record) = table.pin(name.as_bytes()).expect("a record");
            assert_eq!(key_record.key, key(row.key));
            assert_eq!(key_record.floor, self.floors[&row.key]);
            assert_eq!(u64::from(name_record.initial.value()), row.initial);
            let end = name_record.end.map(|end| u64::from(end.value()));
            assert_eq!(end, row.end());
        }
    }
}

/// Marsaglia's xorshift; the same run every time.
pub struct Random(pub u64);

impl Random {
    pub fn below(&mut self, limit: u64) -> u64 {
        self.0 ^= self.0 << 13;
        self.0 ^= self.0 >> 7;
        self.0 ^= self.0 << 17;
        (self.0 >> 16) % limit
    }
}

/// How a run is mixed: each number is one in so many.
struct Mix {
    names: u64,
    keys: u64,
    minutes: u64,
    one_deletion_in: u64,
    one_break_in: u64,
}

fn agree_over_a_run(mix: &Mix, calls: usize) -> usize {
    let mut random = Random(0x9E37_79B9_7F4A_7C15);
    let mut journal = Journal::default();
    let mut area = empty_area();
    let mut clock = 1000;
    let mut refused_room = 0;
    for _ in 0..calls {
        clock += random.below(mix.minutes);
        let name = format!("host{}", random.below(mix.names));
        let spelling = any_spelling(&mut random, name.as_bytes());
        if random.below(mix.one_deletion_in) == 0 {
            let known = journal.rows.remove(&name).is_some();
            journal.forget_floors();
            let number = delete(&mut area, &spelling).number;
            assert_eq!(number, if known { 3 } else { 4 });
        } else {
            let no_room = judge_both(mix, &mut random, &mut journal, &mut area, clock, &name);
            refused_room += usize::from(no_room);
        }
        journal.agrees(&parse(&area).expect("sound"));
        let number = inspect(&area, &spelling, 0, false).number;
        assert_eq!(number == 4, !journal.rows.contains_key(&name));
    }
    refused_room
}

fn judge_both(
    mix: &Mix,
    random: &mut Random,
    journal: &mut Journal,
    area: &mut [u8],
    clock: u64,
    name: &str,
) -> bool {
    let learn_disabled = random.below(2) == 1;
    let shown = (random.below(8) != 0).then(|| Shown {
        key: random.below(mix.keys) as u8,
        min_generation: random.below(4) as u8,
        activation: random.below(2) == 1,
        expired: random.below(6) == 0,
        learn_disabled,
    });
    let mut broken = Vec::new();
    while random.below(mix.one_break_in) == 0 && broken.len() < 8 {
        broken.push(random.below(mix.keys) as u8);
    }
    let bytes = extension_of(shown.as_ref(), &broken);
    let mut call = Call::at(clock, name).with(bytes);
    call.learn_disabled = learn_disabled;
    let latest_before = latest(area);
    let judgement = respelled(random, &call).judge(area);
    if let Some(shown) = shown.as_ref().filter(|shown| shown.expired) {
        journal.raise_floor(shown);
        assert_eq!((judgement.number, judgement.no_room), (23, false));
        assert_eq!(latest(area), latest_before);
        return false;
    }
    let no_room = journal.judged(clock, name, shown.as_ref(), &broken);
    assert_eq!(judgement.no_room, no_room);
    assert_eq!(latest(area), clock as u32);
    let row = journal.rows.get(name);
    let live = row.filter(|row| row.end().is_some_and(|end| clock < end));
    let verdict = match (live, &shown) {
        (None, _) => 0,
        (Some(row), Some(shown)) if row.key == shown.key => 1,
        _ => 2,
    };
    assert_eq!(judgement.number, verdict);
    no_room
}

fn extension_of(shown: Option<&Shown>, broken: &[u8]) -> Vec<u8> {
    let tack = shown.map_or(Vec::new(), |shown| {
        let expiration = if shown.expired { 0 } else { u32::MAX };
        tack(key(shown.key), shown.min_generation, 3, expiration)
    });
    let broken_keys = broken.iter().map(|number| key(*number));
    let breaks: Vec<u8> = broken_keys.flat_map(break_signature).collect();
    let activation = shown.is_some_and(|shown| shown.activation);
    extension(&tack, &breaks, u8::from(activation))
}

#[test]
fn too_many_keys() {
    let mix = Mix {
        names: 120,
        keys: 200,
        minutes: 40,
        one_deletion_in: 50,
        one_break_in: 150,
    };
    assert!(agree_over_a_run(&mix, 1500) > 0);
}

#[test]
fn too_many_names() {
    let mix = Mix {
        names: 140,
        keys: 60,
        minutes: 40,
        one_deletion_in: 50,
        one_break_in: 500,
    };
    assert!(agree_over_a_run(&mix, 1500) > 0);
}

#[test]
fn few_names_and_keys() {
    let mix = Mix {
        names: 6,
        keys: 3,
        minutes: 20_000,
        one_deletion_in: 20,
        one_break_in: 12,
    };
    assert_eq!(agree_over_a_run(&mix, 1000), 0);
}
