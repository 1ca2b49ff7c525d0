//! Slots in edition two: which are taken, and which tack finds none.

use second::{delete, is_sound, Judgement};

use crate::calls::*;
use crate::calls_two::*;

fn host(number: usize) -> String {
    format!("host{number}")
}

/// `names` names with a pin each; name i stands on key i modulo `keys`.
fn filled(names: usize, keys: usize) -> Area {
    let mut area = empty_area_two();
    for number in 0..names {
        let judgement = show(&mut area, 1000, &host(number), &[(number % keys) as u8]);
        assert_eq!(judgement, verdict(0, false));
    }
    area
}

fn verdict(number: u8, no_room: bool) -> Judgement {
    Judgement {
        number,
        alert: if number == 2 { 49 } else { 0 },
        no_room,
    }
}

/// With one or two tacks, all enabled.
fn show(area: &mut [u8], clock: u64, name: &str, keys: &[u8]) -> Judgement {
    let flags = if keys.len() == 2 { 3 } else { 1 };
    show_by_flags(area, clock, name, keys, flags)
}

fn show_by_flags(area: &mut [u8], clock: u64, name: &str, keys: &[u8], flags: u8) -> Judgement {
    let keys: Vec<[u8; 64]> = keys.iter().map(|number| key(*number)).collect();
    let judgement = CallTwo::at(clock, name).showing(&keys, flags).judge(area);
    assert!(is_sound(area));
    judgement
}

/// The name in a slot and the number of its key; nothing if the slot is free.
fn slot_of(area: &[u8], slot: usize) -> Option<(&[u8], u8)> {
    let bytes = name_slot(area, slot);
    let name = &bytes[16..16 + usize::from(bytes[2])];
    let key_number = key_slot(area, usize::from(bytes[1]))[8];
    (bytes[0] == 1).then_some((name, key_number))
}

#[test]
fn names_full() {
    let area = filled(128, 4);
    for keys in [&[9][..], &[0], &[8, 9], &[0, 1], &[0, 9], &[9, 0]] {
        let mut after = area.clone();
        assert_eq!(show(&mut after, 1001, "new", keys), verdict(0, true));
        assert_eq!(latest(&after), 1001);
        assert!(records(&after) == records(&area));
    }
}

#[test]
fn one_name_slot_left() {
    for keys in [[8, 9], [9, 8], [0, 9], [9, 0], [0, 1]] {
        let mut area = filled(127, 4);
        assert_eq!(show(&mut area, 1001, "new", &keys), verdict(0, true));
        assert_eq!(slot_of(&area, 127), Some((&b"new"[..], keys[0])));
        // What lacked room made no key record either.
        let used = (0..64).filter(|slot| key_slot(&area, *slot)[0] == 1);
        assert_eq!(used.count(), if keys[0] < 4 { 4 } else { 5 });
    }
    let mut area = filled(126, 4);
    assert_eq!(show(&mut area, 1001, "new", &[8, 9]), verdict(0, false));
    assert_eq!(slot_of(&area, 126), Some((&b"new"[..], 8)));
    assert_eq!(slot_of(&area, 127), Some((&b"new"[..], 9)));
}

/// Only the tacks that show a recorded key find room.
#[test]
fn keys_full() {
    let area = filled(64, 64);
    let cases = [
        (&[64][..], &[][..], true),
        (&[64, 65], &[], true),
        (&[64, 7], &[7], true),
        (&[7, 64], &[7], true),
        (&[7, 8], &[7, 8], false),
    ];
    for (keys, found, no_room) in cases {
        let mut after = area.clone();
        assert_eq!(show(&mut after, 1001, "new", keys), verdict(0, no_room));
        for place in 0..3 {
            let expected = found.get(place).map(|number| (&b"new"[..], *number));
            assert_eq!(slot_of(&after, 64 + place), expected);
        }
        assert!(after[8..4616] == area[8..4616]);
    }
}

#[test]
fn one_key_slot_left() {
    for keys in [[64, 65], [65, 64]] {
        let mut area = filled(63, 63);
        assert_eq!(show(&mut area, 1001, "new", &keys), verdict(0, true));
        assert_eq!(slot_of(&area, 63), Some((&b"new"[..], keys[0])));
        assert_eq!(slot_of(&area, 64), None);
    }
    let mut area = filled(62, 62);
    assert_eq!(show(&mut area, 1001, "new", &[64, 65]), verdict(0, false));
}

#[test]
fn a_disabled_tack_wants_no_room() {
    let mut area = filled(63, 63);
    let judgement = show_by_flags(&mut area, 1001, "new", &[64, 65], 2);
    assert_eq!(judgement, verdict(0, false));
    assert_eq!(slot_of(&area, 63), Some((&b"new"[..], 65)));
    let judgement = show_by_flags(&mut area, 1001, "newer", &[66, 67], 0);
    assert_eq!(judgement, verdict(0, false));
}

/// The removal comes first and stands, whether or not there is room then.
#[test]
fn a_removed_pin_stays_removed_without_room() {
    let mut area = filled(65, 64);
    assert_eq!(show(&mut area, 1001, "host0", &[64]), verdict(0, true));
    assert_eq!(slot_of(&area, 0), None);
    assert_eq!(slot_of(&area, 64), Some((&b"host64"[..], 0)));
    let name_slots = 4616 + 272..;
    assert!(area[name_slots.clone()] == filled(65, 64)[name_slots]);
}

#[test]
fn slots_freed_by_the_removal() {
    let mut keys_full = filled(64, 64);
    let judgement = show(&mut keys_full, 1001, "host5", &[64, 65]);
    assert_eq!(judgement, verdict(0, true));
    assert_eq!(key_slot(&keys_full, 5)[8..], key(64));
    assert_eq!(slot_of(&keys_full, 5), Some((&b"host5"[..], 64)));
    assert_eq!(slot_of(&keys_full, 64), None);

    let mut names_full = filled(128, 4);
    let judgement = show(&mut names_full, 1001, "host9", &[64, 65]);
    assert_eq!(judgement, verdict(0, true));
    assert_eq!(slot_of(&names_full, 9), Some((&b"host9"[..], 64)));
    assert_eq!(key_slot(&names_full, 5), [0; 72]);
}

/// The first tack extends its pin; the second may still lack room.
#[test]
fn an_extended_pin_wants_no_room() {
    let area = filled(128, 4);
    for (keys, place) in [([1, 9], 0), ([9, 1], 1)] {
        let mut after = area.clone();
        assert_eq!(show(&mut after, 1600, "host5", &keys), verdict(0, true));
        assert_eq!(name_slot(&after, 5)[3], 1);
        assert_eq!(name_slot(&after, 5)[8..12], 2200_u32.to_be_bytes());
        let enabled = 1 << place;
        let judgement = show_by_flags(&mut after, 1700, "host5", &keys, enabled);
        assert_eq!(judgement, verdict(1, false));
        assert_eq!(show(&mut after, 1700, "host5", &keys), verdict(1, true));
    }
}

#[test]
fn a_contradicted_call_wants_no_room() {
    let mut area = filled(128, 4);
    assert_eq!(show(&mut area, 1600, "host5", &[1]), verdict(0, false));
    assert_eq!(show(&mut area, 1700, "host5", &[8, 9]), verdict(2, false));
}

/// Nothing keeps the slot of a removed record, unlike in edition one.
#[test]
fn the_lowest_free_slots_after_the_removal() {
    let mut area = filled(5, 5);
    for name in [b"host3", b"host1"] {
        assert_eq!(delete(&mut area, name).number, 3);
    }
    assert_eq!(show(&mut area, 1001, "host2", &[8, 9]), verdict(0, false));
    assert_eq!(slot_of(&area, 1), Some((&b"host2"[..], 8)));
    assert_eq!(slot_of(&area, 2), Some((&b"host2"[..], 9)));
    assert_eq!(key_slot(&area, 1)[8..], key(8));
    assert_eq!(key_slot(&area, 2)[8..], key(9));
    assert_eq!(slot_of(&area, 3), None);
}

#[test]
fn no_room_still_raises_the_floor() {
    let mut area = filled(128, 1);
    let raising = extension_two(&[tack(key(0), 7, 7, u32::MAX)], 1);
    let call = CallTwo::at(1001, "new").with(raising);
    assert_eq!(call.judge(&mut area), verdict(0, true));
    assert_eq!(key_slot(&area, 0)[1], 7);
}
