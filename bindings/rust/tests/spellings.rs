//! Names in letters of either case: in every spelling a name has one pin, and the table keeps it in small letters.

mod common;

use common::{good, shown};
use tack::table::{Deletion, PinTable, Refusal, Verdict};

const SPELLINGS: [&[u8]; 3] = [b"Desk.Example", b"desk.example", b"DESK.EXAMPLE"];

/// Where the first name slot has its name.
const FIRST_NAME: usize = 4616 + 16;

/// A table with one pin, made at 1000 with this name.
fn learnt_as(name: &[u8]) -> PinTable {
    let mut pins = PinTable::new();
    let third = shown(3, 3, u32::MAX);
    let judged = pins.judge(&good(&third).with_name(name));
    assert_eq!(judged.map(|given| given.verdict), Ok(Verdict::Unpinned));
    pins
}

/// Every pair of spellings, the first for the pin and the second for the call.
fn pairs() -> impl Iterator<Item = (PinTable, &'static [u8])> {
    SPELLINGS
        .into_iter()
        .flat_map(|learnt| SPELLINGS.map(|found| (learnt_as(learnt), found)))
}

#[test]
fn the_table_is_that_of_the_small_spelling() {
    let small = learnt_as(b"desk.example");
    assert_eq!(&small.as_bytes()[FIRST_NAME..][..12], b"desk.example");
    for name in SPELLINGS {
        assert!(learnt_as(name) == small);
    }
}

#[test]
fn judging_finds_the_pin() {
    let third = shown(3, 3, u32::MAX);
    for (mut pins, name) in pairs() {
        let again = good(&third).with_clock(1600).with_name(name);
        let silent = again.without_extension();
        for (connection, verdict) in [(again, Verdict::Confirmed), (silent, Verdict::Contradicted)]
        {
            let judged = pins.judge(&connection);
            assert_eq!(judged.map(|given| given.verdict), Ok(verdict));
        }
    }
}

#[test]
fn inspection_finds_the_pin() {
    for (pins, name) in pairs() {
        let record = pins.inspect(name, 1000).expect("an inspection");
        let record = record.expect("a record");
        assert_eq!((record.floor, record.initial), (3, 1000));
        assert_eq!((record.end, record.minutes_left), (None, None));
    }
}

#[test]
fn deletion_finds_the_pin() {
    for (mut pins, name) in pairs() {
        assert_eq!(pins.delete(name), Ok(Deletion::Deleted));
        for name in SPELLINGS {
            assert_eq!(pins.inspect(name, 1000), Ok(None));
            assert_eq!(pins.delete(name), Ok(Deletion::NotRecorded));
        }
    }
}

#[test]
fn a_table_that_holds_a_capital_is_damaged() {
    let mut bytes = learnt_as(b"desk.example").as_bytes().to_vec();
    assert!(PinTable::from_bytes(&bytes).is_ok());
    bytes[FIRST_NAME] = b'D';
    let refused = PinTable::from_bytes(&bytes).expect_err("it is damaged");
    assert_eq!(refused.refusal(), Refusal::Damaged);
}

#[test]
fn the_bytes_beside_the_letters_are_no_letters() {
    for byte in *b"@[`{" {
        assert!(!tack::is_host_name(&[byte]));
    }
    for byte in *b"AZaz" {
        assert!(tack::is_host_name(&[byte]));
    }
}
