//! Each rule of soundness broken alone.

use second::{delete, inspect, is_sound, parse, start, Damage};

use crate::calls::*;

const FIRST_KEY: usize = 8;
const THIRD_KEY: usize = 8 + 2 * 72;
const FIRST_NAME: usize = 4616;
const SECOND_NAME: usize = 4616 + 272;
const THIRD_NAME: usize = 4616 + 2 * 272;

/// `a.b` from 1000 to 2200 on key slot 0, `c` from 1600 without end on key
/// slot 1; latest 1600.
fn sound() -> Area {
    let mut area = empty_area();
    let first = showing(key(0x11));
    Call::at(1000, "a.b").with(first.clone()).judge(&mut area);
    Call::at(1600, "a.b").with(first).judge(&mut area);
    Call::at(1600, "c")
        .with(showing(key(0x22)))
        .judge(&mut area);
    assert!(is_sound(&area));
    area
}

fn changed(at: usize, bytes: &[u8]) -> Area {
    let mut area = sound();
    area[at..at + bytes.len()].copy_from_slice(bytes);
    area
}

#[track_caller]
fn is_damaged(area: &[u8], damage: Damage) {
    assert_eq!(parse(area).err(), Some(damage));
    assert!(!is_sound(area));
    Call::at(5000, "a.b").is_refused(area, 11, 0);
    let mut after = area.to_vec();
    assert_eq!(delete(&mut after, b"a.b").number, 11);
    assert!(after == area);
    assert_eq!(inspect(area, b"a.b", 5000, false).number, 11);
    assert_eq!(start(&mut after, false).number, 7);
}

#[test]
fn sound_tables_go_round() {
    for area in [empty_area(), sound()] {
        let table = parse(&area).expect("sound");
        let mut written = vec![0xFF; area.len()];
        table.write(&mut written);
        assert!(written == area);
        let mut short = [0xFF; 5];
        table.write(&mut short);
        assert_eq!(short, [0xFF; 5]);
    }
}

#[test]
fn area_length() {
    let area = sound();
    let longer = [area.as_slice(), &[0]].concat();
    for area in [&[], &area[1..], &longer] {
        assert_eq!(parse(area).err(), Some(Damage::AreaLengthWrong));
        assert!(!is_sound(area));
    }
}

#[test]
fn header() {
    let limit = 4_294_924_095_u32;
    assert!(is_sound(&changed(0, &limit.to_be_bytes())));
    let above = changed(0, &(limit + 1).to_be_bytes());
    is_damaged(&above, Damage::LatestAboveLimit);
    for edition in 2..=255 {
        let area = changed(4, &[edition]);
        is_damaged(&area, Damage::EditionNeitherZeroNorOne);
    }
    for at in 5..8 {
        is_damaged(&changed(at, &[1]), Damage::HeaderNotZero);
    }
}

#[test]
fn key_slots() {
    let used = Damage::KeyUsedNeitherZeroNorOne;
    is_damaged(&changed(FIRST_KEY, &[2]), used);
    is_damaged(&changed(THIRD_KEY, &[255]), used);
    for at in 2..8 {
        let area = changed(FIRST_KEY + at, &[1]);
        is_damaged(&area, Damage::KeyFillNotZero);
    }
    for at in [1, 2, 7, 8, 71] {
        let area = changed(THIRD_KEY + at, &[1]);
        is_damaged(&area, Damage::FreeKeySlotNotZero);
    }
    let area = changed(FIRST_KEY + 8, &key(0x22));
    is_damaged(&area, Damage::KeyTwice);
    let area = changed(THIRD_KEY, &[1]);
    is_damaged(&area, Damage::KeyWithoutName);
}

#[test]
fn name_slots() {
    let used = Damage::NameUsedNeitherZeroNorOne;
    is_damaged(&changed(FIRST_NAME, &[2]), used);
    is_damaged(&changed(THIRD_NAME, &[255]), used);
    for at in [1, 2, 3, 4, 11, 15, 16, 268, 271] {
        let area = changed(THIRD_NAME + at, &[1]);
        is_damaged(&area, Damage::FreeNameSlotNotZero);
    }
    for at in 12..16 {
        let area = changed(FIRST_NAME + at, &[1]);
        is_damaged(&area, Damage::NameFillNotZero);
    }
    for at in [19, 20, 268] {
        let area = changed(FIRST_NAME + at, b"a");
        is_damaged(&area, Damage::NamePaddingNotZero);
    }
    for at in 269..272 {
        let area = changed(FIRST_NAME + at, &[1]);
        is_damaged(&area, Damage::NameSlotEndNotZero);
    }
}

#[test]
fn names() {
    let malformed = Damage::NameMalformed;
    for name in [b"A.b", b"a.-", b"ab.", b"a_b", b"a\0b"] {
        is_damaged(&changed(FIRST_NAME + 16, name), malformed);
    }
    for length in [0, 2, 4, 253, 254, 255] {
        is_damaged(&changed(FIRST_NAME + 2, &[length]), malformed);
    }
    let mut nameless = changed(FIRST_NAME + 2, &[0]);
    nameless[FIRST_NAME + 16..FIRST_NAME + 19].fill(0);
    is_damaged(&nameless, malformed);

    let mut twice = changed(SECOND_NAME + 2, &[3]);
    twice[SECOND_NAME + 16..SECOND_NAME + 19].copy_from_slice(b"a.b");
    is_damaged(&twice, Damage::NameTwice);
}

/// Callers may write capitals, a table may not; so nothing folds them away.
#[test]
fn a_capital_is_damage() {
    let malformed = Damage::NameMalformed;
    for capital in b'A'..=b'Z' {
        is_damaged(&changed(FIRST_NAME + 16, &[capital]), malformed);
        is_damaged(&changed(FIRST_NAME + 18, &[capital]), malformed);
    }
    let mut area = changed(FIRST_NAME + 16, b"A.B");
    is_damaged(&area, malformed);
    Call::at(5000, "A.B").is_refused(&area, 11, 0);
    assert_eq!(inspect(&area, b"A.B", 5000, false).number, 11);
    assert_eq!(delete(&mut area, b"A.B").number, 11);

    // The other spelling of a recorded name is no second record of it either.
    let mut beside = changed(SECOND_NAME + 2, &[3]);
    beside[SECOND_NAME + 16..SECOND_NAME + 19].copy_from_slice(b"A.B");
    is_damaged(&beside, malformed);
}

#[test]
fn key_slot_of_a_name() {
    let third_name = |key_slot: u8| {
        let mut area = changed(THIRD_NAME, &[1, key_slot, 1]);
        area[THIRD_NAME + 16] = b'd';
        area
    };
    assert!(is_sound(&third_name(1)));
    for key_slot in [2, 63, 64, 255] {
        is_damaged(&third_name(key_slot), Damage::NameOnFreeKeySlot);
    }
}

#[test]
fn active_period() {
    let field = |at, value: u32| changed(at, &value.to_be_bytes());
    let area = field(SECOND_NAME + 4, 1601);
    is_damaged(&area, Damage::InitialAfterLatest);
    let area = changed(FIRST_NAME + 3, &[2]);
    is_damaged(&area, Damage::EndPresentNeitherZeroNorOne);
    let area = changed(FIRST_NAME + 3, &[0]);
    is_damaged(&area, Damage::AbsentEndNotZero);
    let area = field(SECOND_NAME + 8, 1);
    is_damaged(&area, Damage::AbsentEndNotZero);

    assert!(is_sound(&field(FIRST_NAME + 8, 1000)));
    let area = field(FIRST_NAME + 8, 999);
    is_damaged(&area, Damage::EndBeforeInitial);
    assert!(is_sound(&field(FIRST_NAME + 8, 44_800)));
    let area = field(FIRST_NAME + 8, 44_801);
    is_damaged(&area, Damage::EndTooLate);
}
