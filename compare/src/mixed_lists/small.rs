//! Small tables of edition two with every sort of records of one name, and every sort of call for that name.

use crate::area::{Area, Record, LONGEST};
use crate::call::{Call, ConnectionTwo};
use crate::make::{generation_3, Pins};
use crate::wire::{self, Tack};
use tack::table::Edition;

const CLOCK: u32 = 60_000;
const NAME: &[u8] = b"own.example";

/// The numbers of the name's keys in the order of their slots, of a key that another name has, and of one that nobody has.
const OWN: [usize; 2] = [0, 1];
const RECORDED: usize = 2;
const NEW: usize = 3;

/// When the records of the name's keys were made: the second is as old as makes the longest active period.
const MADE: [u32; 2] = [CLOCK - 100, CLOCK - LONGEST];

/// The state of a record: without an end, ended just now, active.
const ENDS: [Option<u32>; 3] = [None, Some(CLOCK), Some(CLOCK + 1)];

/// A record of the name: its end, and whether another name has its key too.
#[derive(Clone, Copy)]
struct Own {
    end: Option<u32>,
    shared: bool,
}

/// Every table with every call; and one of edition one, for starting and inspection.
pub fn cases() -> impl Iterator<Item = (Area, Call)> {
    let tables = records().into_iter().map(|own| table(Edition::Two, &own));
    let recorded = Own {
        end: None,
        shared: false,
    };
    let one = table(Edition::One, &[recorded]);
    let with_each = |area: Area, calls: Vec<Call>| {
        let calls = calls.into_iter();
        calls.map(move |call| (area.clone(), call))
    };
    let calls = calls();
    tables
        .flat_map(move |area| with_each(area, calls.clone()))
        .chain(with_each(one, managing()))
}

/// No record, one of every sort, and every two.
fn records() -> Vec<Vec<Own>> {
    let sorts = ENDS.map(|end| [false, true].map(|shared| Own { end, shared }));
    let sorts = sorts.concat();
    let mut records = vec![vec![]];
    for &first in &sorts {
        records.push(vec![first]);
        records.extend(sorts.iter().map(|&second| vec![first, second]));
    }
    records
}

fn table(edition: Edition, own: &[Own]) -> Area {
    let mut area = Area::of_edition(edition);
    area.set_latest(CLOCK);
    put(&mut area, 0, RECORDED, None, b"recorded.example");
    for (number, Own { end, shared }) in OWN.into_iter().zip(own) {
        put(&mut area, 10 + number, number, *end, NAME);
        if *shared {
            let name = (Pins::ALIKE.name)(number);
            put(&mut area, 20 + number, number, None, &name);
        }
    }
    area
}

/// A record on a key that stands in the slot of its number, with floor 3.
fn put(area: &mut Area, slot: usize, key: usize, end: Option<u32>, name: &[u8]) {
    area.put_key(key, 3, &(Pins::ALIKE.key)(key));
    let record = Record {
        key_slot: key,
        initial: MADE[key % 2],
        end,
    };
    area.put_pin(slot, record, name);
}

fn calls() -> Vec<Call> {
    let mut calls = managing();
    calls.push(Call::JudgeTwo(ConnectionTwo::at(CLOCK, NAME)));
    let keys = [OWN[0], OWN[1], RECORDED, NEW];
    for min_generation in [3, 4] {
        let tack = |key: usize| Tack {
            min_generation,
            generation: 4,
            ..generation_3((Pins::ALIKE.key)(key))
        };
        for first in keys {
            calls.extend((0..=1).map(|flags| showing(&[tack(first)], flags)));
            for second in keys.into_iter().filter(|&second| second != first) {
                let tacks = [tack(first), tack(second)];
                calls.extend((0..=3).map(|flags| showing(&tacks, flags)));
            }
        }
    }
    calls
}

fn showing(tacks: &[Tack], flags: u8) -> Call {
    let extension = wire::extension_two(tacks, flags);
    Call::JudgeTwo(ConnectionTwo::at(CLOCK, NAME).with(extension))
}

/// Deletion, inspection of either record, starting for either edition.
fn managing() -> Vec<Call> {
    let inspection = |second| Call::Inspect {
        name: NAME.to_vec(),
        clock: u64::from(CLOCK),
        second,
    };
    vec![
        Call::Delete {
            name: NAME.to_vec(),
        },
        inspection(false),
        inspection(true),
        Call::Start(Edition::One),
        Call::Start(Edition::Two),
    ]
}

#[test]
fn the_tables_are_sound() {
    for own in records() {
        assert!(second::is_sound(&table(Edition::Two, &own).bytes));
    }
}
