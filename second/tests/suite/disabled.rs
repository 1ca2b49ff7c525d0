//! "Don't learn from disabled servers": by the default a disabled tack makes no
//! record. A call with the explicit yes is judged in the old way, in which it
//! does.

use second::{judge_kept, parse, Judgement};

use crate::calls::*;
use crate::room::{filled, host, NO_ROOM};

const K: [u8; 64] = [0x11; 64];
const L: [u8; 64] = [0x22; 64];

fn verdict(number: u8) -> Judgement {
    Judgement {
        number,
        alert: if number == 2 { 49 } else { 0 },
        no_room: false,
    }
}

/// The answer and the area after it; a kept table must have the same.
#[track_caller]
fn judged(call: &Call, before: &[u8]) -> (Judgement, Area) {
    let mut after = before.to_vec();
    let judgement = call.judge(&mut after);
    let mut kept = parse(before).expect("sound");
    assert_eq!(judge_kept(&mut kept, &call.connection()), judgement);
    assert!(kept == parse(&after).expect("sound"));
    (judgement, after)
}

/// Asserts an answer and the whole area after it.
#[track_caller]
fn answers(call: &Call, before: &[u8], judgement: Judgement, expected: &[u8]) {
    let (given, after) = judged(call, before);
    assert_eq!(given, judgement);
    assert!(after == expected, "the area is not as expected");
}

/// The same area at a later clock.
fn at_clock(area: &[u8], clock: u32) -> Area {
    let mut later = area.to_vec();
    later[..4].copy_from_slice(&clock.to_be_bytes());
    later
}

fn with_floor(mut area: Area, floor: u8) -> Area {
    area[8 + 1] = floor;
    area
}

/// One record in the first slots, without end: `a.b` with this key, floor 3.
fn recording(key: [u8; 64], initial: u32) -> Area {
    let mut area = at_clock(&empty_area(), initial);
    area[8..10].copy_from_slice(&[1, 3]);
    area[16..80].copy_from_slice(&key);
    area[4616..4619].copy_from_slice(&[1, 0, 3]);
    area[4620..4624].copy_from_slice(&initial.to_be_bytes());
    area[4632..4635].copy_from_slice(b"a.b");
    area
}

/// `a.b` with K from 1000, active from 1600 to 2200.
fn active() -> Area {
    with_end(&at_clock(&recording(K, 1000), 1600), 2200)
}

fn with_end(area: &[u8], end: u32) -> Area {
    let mut area = area.to_vec();
    area[4619] = 1;
    area[4624..4628].copy_from_slice(&end.to_be_bytes());
    area
}

#[test]
fn a_disabled_tack_makes_no_record() {
    let call = Call::at(1000, "a.b").with(showing_disabled(K));
    let expected = at_clock(&empty_area(), 1000);
    answers(&call, &empty_area(), verdict(0), &expected);
}

#[test]
fn in_the_old_way_a_disabled_tack_makes_a_record() {
    let call = Call::at(1000, "a.b").with(showing_disabled(K));
    let call = call.in_the_old_way();
    answers(&call, &empty_area(), verdict(0), &recording(K, 1000));
}

#[test]
fn an_enabled_tack_makes_a_record_in_both_ways() {
    for call in Call::at(1000, "a.b").with(showing(K)).in_both_ways() {
        answers(&call, &empty_area(), verdict(0), &recording(K, 1000));
    }
}

/// The yes makes no record without a tack.
#[test]
fn without_a_tack_no_record_is_made() {
    let call = Call::at(1000, "a.b");
    let expected = at_clock(&empty_area(), 1000);
    for bytes in [vec![0, 0, 0, 0], vec![0, 0, 0, 1], breaking(&[K])] {
        for call in call.clone().with(bytes).in_both_ways() {
            answers(&call, &empty_area(), verdict(0), &expected);
        }
    }
    for call in call.in_both_ways() {
        answers(&call, &empty_area(), verdict(0), &expected);
    }
}

/// One that was never active, and one at its end.
#[test]
fn an_inactive_record_with_another_key() {
    for area in [recording(K, 1000), active()] {
        let disabled = Call::at(2200, "a.b").with(showing_disabled(L));
        answers(&disabled, &area, verdict(0), &at_clock(&area, 2200));
        let disabled = disabled.in_the_old_way();
        answers(&disabled, &area, verdict(0), &recording(L, 2200));
        let enabled = Call::at(2200, "a.b").with(showing(L));
        for call in enabled.in_both_ways() {
            answers(&call, &area, verdict(0), &recording(L, 2200));
        }
    }
}

#[test]
fn an_active_record_with_another_key_stays_in_both_ways() {
    for shown in [showing(L), showing_disabled(L)] {
        for call in Call::at(2199, "a.b").with(shown).in_both_ways() {
            let area = active();
            answers(&call, &area, verdict(2), &at_clock(&area, 2199));
        }
    }
}

/// By the default a disabled tack wants no record, so there is no lack of room.
#[track_caller]
fn finds_no_room_if_a_record_is_wanted(area: &[u8], name: &str, key: [u8; 64]) {
    let expected = at_clock(area, 1001);
    let disabled = Call::at(1001, name).with(showing_disabled(key));
    answers(&disabled, area, verdict(0), &expected);
    answers(&disabled.in_the_old_way(), area, NO_ROOM, &expected);
    for enabled in Call::at(1001, name).with(showing(key)).in_both_ways() {
        answers(&enabled, area, NO_ROOM, &expected);
    }
}

#[test]
fn names_full() {
    let area = filled(128, 1);
    for number in [0, 1] {
        finds_no_room_if_a_record_is_wanted(&area, "new", key(number));
    }
}

/// The old key of `host0` would not go, as another name is left on it.
#[test]
fn keys_full() {
    finds_no_room_if_a_record_is_wanted(&filled(64, 64), "new", key(64));
    finds_no_room_if_a_record_is_wanted(&filled(65, 64), &host(0), key(64));
}

/// Whatever record the name has: one with the key, none, or an inactive one with
/// another key. By the default nothing else changes but latest.
#[test]
fn a_disabled_tack_raises_the_floor() {
    let mut area = active();
    let beside = Call::at(1600, "c").with(showing(L));
    assert_eq!(beside.judge(&mut area), verdict(0));
    let shown = extension(&tack(K, 5, 9, u32::MAX), &[], 0);
    let expected = with_floor(at_clock(&area, 1700), 5);
    for (name, number) in [("a.b", 1), ("new", 0), ("c", 0)] {
        let call = Call::at(1700, name).with(shown.clone());
        answers(&call, &area, verdict(number), &expected);
        let (judgement, after) = judged(&call.in_the_old_way(), &area);
        assert_eq!(judgement, verdict(number));
        assert_eq!(key_slot(&after, 0)[..2], [1, 5]);
    }
}

#[test]
fn a_disabled_tack_raises_the_floor_of_a_full_table() {
    let area = filled(128, 1);
    let shown = extension(&tack(key(0), 5, 9, u32::MAX), &[], 0);
    let call = Call::at(1001, "new").with(shown);
    let expected = with_floor(at_clock(&area, 1001), 5);
    answers(&call, &area, verdict(0), &expected);
    answers(&call.in_the_old_way(), &area, NO_ROOM, &expected);
}

#[test]
fn an_enabled_tack_extends_its_record_in_both_ways() {
    for area in [recording(K, 1000), active()] {
        for call in Call::at(1700, "a.b").with(showing(K)).in_both_ways() {
            let expected = with_end(&at_clock(&area, 1700), 2400);
            answers(&call, &area, verdict(1), &expected);
        }
    }
}

#[test]
fn a_disabled_tack_extends_no_record_in_either_way() {
    for (area, number) in [(recording(K, 1000), 0), (active(), 1)] {
        let shown = Call::at(1700, "a.b").with(showing_disabled(K));
        for call in shown.in_both_ways() {
            answers(&call, &area, verdict(number), &at_clock(&area, 1700));
        }
    }
}

/// The broken key goes with its names, whether or not the tack makes a record.
#[test]
fn break_signatures_act_in_both_ways() {
    let shown = extension(&tack(L, 3, 3, u32::MAX), &break_signature(K), 0);
    let nothing = at_clock(&empty_area(), 1700);
    for name in ["a.b", "new"] {
        let call = Call::at(1700, name).with(shown.clone());
        answers(&call, &active(), verdict(0), &nothing);
    }
    // The active record of `a.b` stood when the tack was looked at.
    let call = Call::at(1700, "a.b").with(shown.clone()).in_the_old_way();
    answers(&call, &active(), verdict(0), &nothing);

    let call = Call::at(1700, "new").with(shown).in_the_old_way();
    let (judgement, after) = judged(&call, &active());
    assert_eq!(judgement, verdict(0));
    assert_eq!(key_slot(&after, 0), [0; 72]);
    assert_eq!(name_slot(&after, 0), [0; 272]);
    assert_eq!(key_slot(&after, 1)[8..], L);
    assert_eq!(name_slot(&after, 1)[..4], [1, 1, 3, 0]);
}

#[test]
fn break_signatures_of_the_shown_key_act_in_both_ways() {
    let shown = extension(&tack(K, 3, 3, u32::MAX), &break_signature(K), 0);
    for area in [empty_area(), active()] {
        let call = Call::at(1700, "a.b").with(shown.clone());
        for call in call.in_both_ways() {
            answers(&call, &area, verdict(0), &at_clock(&empty_area(), 1700));
        }
    }
}

#[test]
fn latest_is_set_without_a_record() {
    let call = Call::at(1000, "a.b").with(showing_disabled(K));
    let (_, area) = judged(&call, &empty_area());
    assert_eq!(latest(&area), 1000);
    Call::at(999, "a.b").is_refused(&area, 14, 0);
}

/// A clock, an extension, whether the old way is asked for, the verdict, and the
/// area but for latest.
#[test]
fn the_choice_changes_from_call_to_call() {
    let until_1007 = with_end(&recording(L, 1003), 1007);
    let list = [
        (1000, showing_disabled(K), false, 0, empty_area()),
        (1001, showing_disabled(K), true, 0, recording(K, 1001)),
        (1002, showing_disabled(L), false, 0, recording(K, 1001)),
        (1003, showing_disabled(L), true, 0, recording(L, 1003)),
        (1004, showing_disabled(K), false, 0, recording(L, 1003)),
        (1005, showing(L), false, 1, until_1007.clone()),
        (1006, showing_disabled(K), true, 2, until_1007.clone()),
        (1007, showing_disabled(K), false, 0, until_1007),
        (1008, showing_disabled(K), true, 0, recording(K, 1008)),
        (1009, showing(L), false, 0, recording(L, 1009)),
        (1010, showing(K), true, 0, recording(K, 1010)),
    ];
    let mut area = empty_area();
    for (clock, shown, learn_disabled, number, expected) in list {
        let mut call = Call::at(u64::from(clock), "a.b").with(shown);
        call.learn_disabled = learn_disabled;
        let expected = at_clock(&expected, clock);
        answers(&call, &area, verdict(number), &expected);
        area = expected;
    }
}
