//! Tables of edition two through the safe crate: started, kept, two records of a name inspected and deleted.

mod common_two;

use common_two::{good, shown, tack, with_two_pins, Tack, HASH};
use tack::table::{Checks, Connection, Deletion, Edition, PinTable, Refusal, Verdict, AREA_LENGTH};

#[test]
fn the_empty_tables_differ_in_byte_4() {
    let mut pins = PinTable::new();
    assert_eq!(pins.edition(), Edition::One);
    assert_eq!(pins.as_bytes(), &[0; AREA_LENGTH]);
    pins.start(Edition::Two);
    assert_eq!(pins.edition(), Edition::Two);
    let mut expected = [0; AREA_LENGTH];
    expected[4] = 1;
    assert_eq!(pins.as_bytes(), &expected);
    pins.start(Edition::One);
    assert!(pins == PinTable::default());
}

#[test]
fn a_kept_table_keeps_its_edition() {
    let pins = with_two_pins();
    let mut kept = pins.as_bytes().to_vec();
    let again = PinTable::from_bytes(&kept).expect("a sound table");
    assert!(again == pins);
    assert_eq!(again.edition(), Edition::Two);
    // In edition one a name has one record, and there is no third edition.
    for edition in [0, 2] {
        kept[4] = edition;
        let refused = PinTable::from_bytes(&kept).expect_err("it is damaged");
        assert_eq!(refused.refusal(), Refusal::Damaged);
    }
}

#[test]
fn two_records_are_inspected_in_the_order_of_their_slots() {
    let mut pins = with_two_pins();
    // The second key alone: the first record goes, and its slot is free again.
    let second = shown(&[tack(0x22)], 0b1);
    let given = pins.judge_two(&good(&second).with_clock(1600));
    let given = given.expect("a verdict");
    assert_eq!(given.verdict, Verdict::Unpinned);
    let fifth = Tack {
        min_generation: 5,
        generation: 5,
        ..tack(0x11)
    };
    let both = shown(&[fifth, tack(0x22)], 0b11);
    let given = pins.judge_two(&good(&both).with_clock(1700));
    let given = given.expect("a verdict");
    assert_eq!(given.verdict, Verdict::Confirmed);
    let new = pins.inspect(b"A.b", 2000).expect("an inspection");
    let new = new.expect("a record");
    assert_eq!((new.floor, new.initial), (5, 1700));
    assert_eq!((new.end, new.minutes_left), (None, None));
    let old = pins.inspect_second(b"a.B", 2000).expect("an inspection");
    let old = old.expect("a record");
    assert_eq!((old.floor, old.initial), (3, 1000));
    assert_eq!((old.end, old.minutes_left), (Some(2400), Some(400)));
}

#[test]
fn in_edition_one_there_is_no_second_record() {
    let mut pins = PinTable::new();
    assert_eq!(pins.inspect_second(b"a.b", 0), Ok(None));
    let tack = [&[0x11; 64][..], &[3, 3], &[0xff; 4], &HASH, &[0x55; 64]].concat();
    let mut extension = [0; 170];
    tack::extension::write(&tack, &[], true, &mut extension)
        .expect("its parts have the right lengths");
    let connection = Connection::new(1000, b"a.b", &HASH, Checks::all_passed());
    let judged = pins.judge(&connection.with_extension(&extension));
    assert!(judged.is_ok());
    assert!(pins
        .inspect(b"a.b", 1000)
        .is_ok_and(|found| found.is_some()));
    assert_eq!(pins.inspect_second(b"a.b", 1000), Ok(None));
}

#[test]
fn deletion_removes_both_records() {
    let mut pins = with_two_pins();
    assert_eq!(pins.delete(b"A.B"), Ok(Deletion::Deleted));
    assert_eq!(pins.inspect(b"a.b", 1000), Ok(None));
    assert_eq!(pins.inspect_second(b"a.b", 1000), Ok(None));
    assert_eq!(pins.delete(b"a.b"), Ok(Deletion::NotRecorded));
    let mut empty = PinTable::of_edition(Edition::Two).as_bytes().to_vec();
    empty[..4].copy_from_slice(&1000u32.to_be_bytes());
    assert_eq!(pins.as_bytes()[..], empty[..]);
}
