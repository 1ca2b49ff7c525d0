//! Slots: which are taken, and what happens when none is free.

use second::{delete, is_sound, Judgement};

use crate::calls::*;

pub const NO_ROOM: Judgement = Judgement {
    number: 0,
    alert: 0,
    no_room: true,
};

pub fn host(number: usize) -> String {
    format!("host{number}")
}

/// `names` names; name i stands on key i modulo `keys`.
pub fn filled(names: usize, keys: usize) -> Area {
    let mut area = empty_area();
    for number in 0..names {
        let key = key((number % keys) as u8);
        let call = Call::at(1000, &host(number)).with(showing(key));
        assert!(!call.judge(&mut area).no_room);
    }
    area
}

fn show(area: &mut [u8], clock: u64, name: &str, key_number: u8) -> Judgement {
    let call = Call::at(clock, name).with(showing(key(key_number)));
    let judgement = call.judge(area);
    assert!(is_sound(area));
    judgement
}

#[test]
fn names_full() {
    let area = filled(128, 1);
    for key_number in [0, 1] {
        let mut after = area.clone();
        assert_eq!(show(&mut after, 1001, "new", key_number), NO_ROOM);
        assert_eq!(latest(&after), 1001);
        assert!(records(&after) == records(&area));
    }
}

#[test]
fn keys_full() {
    let area = filled(64, 64);
    let mut after = area.clone();
    assert_eq!(show(&mut after, 1001, "new", 64), NO_ROOM);
    assert_eq!(latest(&after), 1001);
    assert!(records(&after) == records(&area));

    // A key that has a record needs no slot.
    assert!(!show(&mut after, 1002, "new", 7).no_room);
    assert_eq!(name_slot(&after, 64)[..3], [1, 7, 3]);
}

#[test]
fn key_freed_by_the_removal() {
    let mut area = filled(64, 64);
    assert!(!show(&mut area, 1001, &host(5), 64).no_room);
    assert_eq!(key_slot(&area, 5)[8..], key(64));
    assert_eq!(name_slot(&area, 5)[..2], [1, 5]);
    assert_eq!(name_slot(&area, 5)[4..8], 1001_u32.to_be_bytes());
}

#[test]
fn key_not_freed_while_another_name_stands_on_it() {
    let area = filled(65, 64);
    let mut after = area.clone();
    assert_eq!(show(&mut after, 1001, &host(0), 64), NO_ROOM);
    assert!(records(&after) == records(&area));
}

#[test]
fn replaced_record_keeps_its_slot() {
    let mut area = filled(128, 1);
    assert!(!show(&mut area, 1001, &host(100), 1).no_room);
    assert_eq!(key_slot(&area, 1)[8..], key(1));
    assert_eq!(name_slot(&area, 100)[..4], [1, 1, 7, 0]);

    let mut area = filled(3, 3);
    assert_eq!(delete(&mut area, b"host0").number, 3);
    assert!(!show(&mut area, 1001, &host(2), 9).no_room);
    assert_eq!(name_slot(&area, 0), [0; 272]);
    assert_eq!(name_slot(&area, 2)[..2], [1, 0]);
    assert_eq!(key_slot(&area, 0)[8..], key(9));
    assert_eq!(key_slot(&area, 2), [0; 72]);
}

#[test]
fn replacing_by_a_recorded_key() {
    let mut area = filled(3, 3);
    assert!(!show(&mut area, 1001, &host(0), 2).no_room);
    assert_eq!(key_slot(&area, 0), [0; 72]);
    assert_eq!(name_slot(&area, 0)[..2], [1, 2]);
}

#[test]
fn slots_are_counted_after_the_removal() {
    let mut area = filled(2, 2);
    assert!(!show(&mut area, 1001, &host(0), 9).no_room);
    assert_eq!(key_slot(&area, 0)[8..], key(9));
    assert_eq!(key_slot(&area, 2), [0; 72]);
}

#[test]
fn lowest_free_slots() {
    let mut area = filled(5, 5);
    for name in [b"host3", b"host1"] {
        assert_eq!(delete(&mut area, name).number, 3);
    }
    assert!(!show(&mut area, 1001, "new", 9).no_room);
    assert_eq!(key_slot(&area, 1)[8..], key(9));
    assert_eq!(name_slot(&area, 1)[..2], [1, 1]);
}

#[test]
fn an_active_record_wants_no_room() {
    let mut area = filled(64, 64);
    assert_eq!(show(&mut area, 1600, &host(5), 5).number, 1);
    let contradicted = Judgement {
        number: 2,
        alert: 49,
        no_room: false,
    };
    assert_eq!(show(&mut area, 1601, &host(5), 64), contradicted);
}

#[test]
fn no_room_still_raises_the_floor() {
    let mut area = filled(128, 1);
    let raising = extension(&tack(key(0), 7, 7, u32::MAX), &[], 1);
    let call = Call::at(1001, "new").with(raising);
    assert_eq!(call.judge(&mut area), NO_ROOM);
    assert_eq!(key_slot(&area, 0)[1], 7);
}

/// A break signature frees its slots only after the tack was looked at.
#[test]
fn no_room_before_the_break() {
    let mut area = filled(64, 64);
    let new = tack(key(64), 3, 3, u32::MAX);
    let both = extension(&new, &break_signature(key(0)), 1);
    let call = Call::at(1001, "new").with(both);
    assert_eq!(call.judge(&mut area), NO_ROOM);
    assert_eq!(key_slot(&area, 0), [0; 72]);
    assert_eq!(name_slot(&area, 0), [0; 272]);
    assert_eq!(name_slot(&area, 64), [0; 272]);
}
