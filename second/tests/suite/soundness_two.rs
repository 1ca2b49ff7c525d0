//! Soundness in edition two: which names may stand twice.

use second::{delete, inspect, is_sound, parse, Damage, Edition};

use crate::calls::*;
use crate::calls_two::*;

const FIRST_NAME: usize = 4616;
const SECOND_NAME: usize = 4616 + 272;
const THIRD_NAME: usize = 4616 + 2 * 272;

/// `a.b` on key slots 0 and 1, then `c.d` on key slot 2; latest 1000.
fn sound() -> Area {
    let mut area = empty_area_two();
    let call = CallTwo::at(1000, "a.b").showing(&[key(1), key(2)], 3);
    assert_eq!(call.number(&mut area), 0);
    let call = CallTwo::at(1000, "c.d").showing(&[key(3)], 1);
    assert_eq!(call.number(&mut area), 0);
    assert!(is_sound(&area));
    area
}

fn changed(changes: &[(usize, &[u8])]) -> Area {
    let mut area = sound();
    for (at, bytes) in changes {
        area[*at..*at + bytes.len()].copy_from_slice(bytes);
    }
    area
}

#[track_caller]
fn is_damaged(area: &[u8], damage: Damage) {
    assert_eq!(parse(area).err(), Some(damage));
    assert!(!is_sound(area));
    CallTwo::at(5000, "a.b").is_refused(area, 11, 0);
    Call::at(5000, "a.b").is_refused(area, 11, 0);
    let mut after = area.to_vec();
    assert_eq!(delete(&mut after, b"a.b").number, 11);
    assert!(after == area);
    assert_eq!(inspect(area, b"a.b", 5000, true).number, 11);
}

#[test]
fn sound_tables_go_round() {
    for area in [empty_area_two(), sound()] {
        let table = parse(&area).expect("sound");
        assert_eq!(table.edition(), Edition::Two);
        let mut written = vec![0xFF; area.len()];
        table.write(&mut written);
        assert!(written == area);
    }
    let table = parse(&empty_area()).expect("sound");
    assert_eq!(table.edition(), Edition::One);
}

#[test]
fn the_rest_of_the_header_is_zero() {
    for at in 5..8 {
        is_damaged(&changed(&[(at, &[1])]), Damage::HeaderNotZero);
        let mut empty = empty_area_two();
        empty[at] = 1;
        is_damaged(&empty, Damage::HeaderNotZero);
    }
}

/// The same bytes with the other edition.
#[test]
fn two_records_of_a_name_are_damage_in_edition_one() {
    is_damaged(&changed(&[(4, &[0])]), Damage::NameTwice);
    let mut once = sound();
    assert_eq!(delete(&mut once, b"a.b").number, 3);
    once[4] = 0;
    assert!(is_sound(&once));
}

#[test]
fn two_records_with_one_key() {
    let one_key = Damage::NameTwiceOnOneKey;
    // The other name moves to the key that is left over.
    let mut area = changed(&[(SECOND_NAME + 1, &[0]), (THIRD_NAME + 1, &[1])]);
    area[8 + 2 * 72..8 + 3 * 72].fill(0);
    is_damaged(&area, one_key);
    let area = changed(&[(THIRD_NAME + 16, b"a.b"), (THIRD_NAME + 1, &[1])]);
    is_damaged(&area, one_key);
}

#[test]
fn three_records() {
    let area = changed(&[(THIRD_NAME + 16, b"a.b")]);
    is_damaged(&area, Damage::NameThrice);
    // Not next to each other, and in the last slot.
    let mut area = sound();
    let last = 4616 + 127 * 272;
    let record = area[THIRD_NAME..THIRD_NAME + 272].to_vec();
    area[last..].copy_from_slice(&record);
    area[last + 16..last + 19].copy_from_slice(b"a.b");
    is_damaged(&area, Damage::NameThrice);
    area[FIRST_NAME + 16..FIRST_NAME + 19].copy_from_slice(b"e.f");
    assert!(is_sound(&area));
}

#[test]
fn two_names_twice_on_the_same_two_keys() {
    let mut area = changed(&[(THIRD_NAME + 1, &[0])]);
    area[8 + 2 * 72..8 + 3 * 72].fill(0);
    let fourth = THIRD_NAME + 272;
    let record = area[THIRD_NAME..fourth].to_vec();
    area[fourth..fourth + 272].copy_from_slice(&record);
    is_damaged(&area, Damage::NameTwiceOnOneKey);
    area[fourth + 1] = 1;
    assert!(is_sound(&area));
}

/// Key records are never twice, and each has a name.
#[test]
fn keys_as_before() {
    let second_key = 8 + 72 + 8;
    is_damaged(&changed(&[(second_key, &key(1))]), Damage::KeyTwice);
    let fourth_key = 8 + 3 * 72;
    is_damaged(&changed(&[(fourth_key, &[1])]), Damage::KeyWithoutName);
    let area = changed(&[(SECOND_NAME + 1, &[3])]);
    is_damaged(&area, Damage::NameOnFreeKeySlot);
}
