//! Connections of edition two with one flaw, and with every two: the first in the order of the refusals is to be answered.

use crate::area::{Area, Record, LIMIT};
use crate::call::ConnectionTwo;
use crate::make::{generation_3, Pins};
use crate::wire::{self, Tack};
use tack::table::Edition;

const CLOCK: u32 = 60_000;
const NAME: &[u8] = b"own.example";

/// What is wrong with a connection, in the order in which it is to be found; of a tack, by its place.
#[derive(Debug, Clone, Copy, PartialEq, Eq)]
enum Flaw {
    Name,
    ClockAboveLimit,
    ClockBeforeLatest,
    Handshake,
    Extension,
    OneKey,
    Key(usize),
    Minimum(usize),
    BelowClock(usize),
    AtClock(usize),
    Hash(usize),
    Signature(usize),
    Floor(usize),
}

use Flaw::*;

const ORDER: [Flaw; 20] = [
    Name,
    ClockAboveLimit,
    ClockBeforeLatest,
    Handshake,
    Extension,
    OneKey,
    Key(0),
    Minimum(0),
    BelowClock(0),
    AtClock(0),
    Hash(0),
    Signature(0),
    Key(1),
    Minimum(1),
    BelowClock(1),
    AtClock(1),
    Hash(1),
    Signature(1),
    Floor(0),
    Floor(1),
];

impl Flaw {
    fn number(self) -> u8 {
        match self {
            Name => 12,
            ClockAboveLimit => 13,
            ClockBeforeLatest => 14,
            Handshake => 15,
            Extension => 16,
            OneKey => 24,
            Key(_) => 18,
            Minimum(_) => 19,
            BelowClock(_) | AtClock(_) => 23,
            Hash(_) => 20,
            Signature(_) => 21,
            Floor(_) => 22,
        }
    }
}

/// A connection, and the number that a table of edition two is to answer.
pub struct Flawed {
    pub connection: ConnectionTwo,
    pub number: u8,
}

/// Every flaw alone, and every two.
pub fn all() -> Vec<Flawed> {
    let mut all = vec![];
    for (place, &first) in ORDER.iter().enumerate() {
        for &second in &ORDER[place..] {
            all.push(Flawed {
                connection: connection(&[first, second]),
                number: first.number(),
            });
        }
    }
    all
}

fn connection(flaws: &[Flaw]) -> ConnectionTwo {
    let has = |flaw| flaws.contains(&flaw);
    let clock = match (has(ClockAboveLimit), has(ClockBeforeLatest)) {
        (true, _) => LIMIT + 1,
        (false, true) => CLOCK - 1,
        (false, false) => CLOCK,
    };
    let answers = |flaw: fn(usize) -> Flaw| u8::from(!has(flaw(0))) | u8::from(!has(flaw(1))) << 1;
    let name = match has(Name) {
        true => &b"-"[..],
        false => NAME,
    };
    ConnectionTwo {
        handshake_finished: !has(Handshake),
        keys_are_points: answers(Key),
        signatures_correct: answers(Signature),
        ..ConnectionTwo::at(clock, name).with(extension(clock, flaws))
    }
}

fn extension(clock: u32, flaws: &[Flaw]) -> Vec<u8> {
    let tacks = [0, 1].map(|place| tack(place, clock, flaws));
    let mut bytes = wire::extension_two(&tacks, 0b11);
    for place in [0, 1] {
        if flaws.contains(&Hash(place)) {
            bytes[wire::target_hash_in_two(place)] ^= 1;
        }
    }
    if flaws.contains(&Extension) {
        bytes.pop();
    }
    bytes
}

fn tack(place: usize, clock: u32, flaws: &[Flaw]) -> Tack {
    let has = |flaw| flaws.contains(&flaw);
    let generation = 3 - u8::from(has(Floor(place)));
    Tack {
        min_generation: generation + u8::from(has(Minimum(place))),
        generation,
        expiration: match (has(BelowClock(place)), has(AtClock(place))) {
            (true, _) => clock - 1,
            (false, true) => clock,
            (false, false) => u32::MAX,
        },
        ..generation_3((Pins::ALIKE.key)(if has(OneKey) { 0 } else { place }))
    }
}

/// A table with both keys at floor 3, each on a record of the name where the edition allows two.
pub fn table(edition: Edition) -> Area {
    let mut area = Area::of_edition(edition);
    area.set_latest(CLOCK);
    let names = match edition {
        Edition::One => [NAME, b"another.example"],
        Edition::Two => [NAME, NAME],
    };
    for (slot, name) in names.into_iter().enumerate() {
        area.put_key(slot, 3, &(Pins::ALIKE.key)(slot));
        let record = Record {
            key_slot: slot,
            initial: CLOCK,
            end: None,
        };
        area.put_pin(slot, record, name);
    }
    area
}

#[test]
fn a_connection_without_flaws_passes() {
    let mut area = table(Edition::Two);
    assert!(second::is_sound(&area.bytes));
    assert!(second::is_sound(&table(Edition::One).bytes));
    let judged = second::judge_two(&mut area.bytes, &connection(&[]).for_second());
    assert_eq!(judged.number, 0);
}
