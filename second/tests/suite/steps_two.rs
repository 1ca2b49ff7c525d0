//! The steps of judging in edition two, apart from room.

use second::{inspect, is_sound, Inspection};

use crate::calls::*;
use crate::calls_two::*;

const A: [u8; 64] = [0x11; 64];
const B: [u8; 64] = [0x22; 64];
const C: [u8; 64] = [0x33; 64];

/// Judges a call for `a.b`; the table is sound afterwards.
#[track_caller]
fn show(area: &mut [u8], clock: u64, keys: &[[u8; 64]], flags: u8) -> u8 {
    let call = CallTwo::at(clock, "a.b").showing(keys, flags);
    let judgement = call.judge(area);
    assert!(!judgement.no_room);
    assert!(is_sound(area));
    assert_eq!(latest(area), clock as u32);
    judgement.number
}

/// No extension came.
#[track_caller]
fn show_nothing(area: &mut [u8], clock: u64) -> u8 {
    let number = CallTwo::at(clock, "a.b").number(area);
    assert!(is_sound(area));
    number
}

/// Floor, initial and end, 0 for none, of one of the records of `a.b`.
fn record(area: &[u8], second: bool) -> Option<(u8, u32, u32)> {
    let Inspection {
        number,
        floor,
        initial,
        end,
        ..
    } = inspect(area, b"a.b", 0, second);
    (number != 4).then_some((floor, initial, end))
}

fn both_records(area: &[u8]) -> [Option<(u8, u32, u32)>; 2] {
    [record(area, false), record(area, true)]
}

/// `a.b` on A from 1000, active to 4800, and on B from 2000, active to 3800;
/// latest 2900.
fn both_active() -> Area {
    let mut area = empty_area_two();
    assert_eq!(show(&mut area, 1000, &[A], 1), 0);
    assert_eq!(record(&area, false), Some((3, 1000, 0)));
    // The verdict falls before the record is extended.
    assert_eq!(show(&mut area, 1600, &[A], 1), 0);
    assert_eq!(record(&area, false), Some((3, 1000, 2200)));
    assert_eq!(show(&mut area, 2000, &[A, B], 3), 1);
    let expected = [Some((3, 1000, 3000)), Some((3, 2000, 0))];
    assert_eq!(both_records(&area), expected);
    assert_eq!(show(&mut area, 2900, &[A, B], 3), 1);
    let expected = [Some((3, 1000, 4800)), Some((3, 2000, 3800))];
    assert_eq!(both_records(&area), expected);
    area
}

#[test]
fn the_first_call_makes_the_stated_table() {
    let mut area = empty_area_two();
    assert_eq!(show(&mut area, 1000, &[A, B], 3), 0);
    let mut expected = empty_area();
    expected[..8].copy_from_slice(&[0, 0, 0x03, 0xE8, 1, 0, 0, 0]);
    for (slot, key) in [A, B].iter().enumerate() {
        let at = 8 + 72 * slot;
        expected[at..at + 2].copy_from_slice(&[1, 3]);
        expected[at + 8..at + 72].copy_from_slice(key);
        let at = 4616 + 272 * slot;
        expected[at..at + 8].copy_from_slice(&[1, slot as u8, 3, 0, 0, 0, 0x03, 0xE8]);
        expected[at + 16..at + 19].copy_from_slice(b"a.b");
    }
    assert!(area == expected);
}

/// While both pins are active, a server has to satisfy both.
#[test]
fn one_of_two_active_pins_contradicts() {
    let area = both_active();
    for keys in [&[A][..], &[B], &[C], &[A, C], &[C, B]] {
        for flags in 0..=1 {
            let mut after = area.clone();
            assert_eq!(show(&mut after, 3000, keys, flags), 2);
            assert!(records(&after) == records(&area));
        }
    }
    let mut after = area.clone();
    assert_eq!(show_nothing(&mut after, 3000), 2);
    assert!(records(&after) == records(&area));
    // In any order, enabled or not.
    for keys in [[A, B], [B, A]] {
        for flags in 0..=3 {
            assert_eq!(show(&mut area.clone(), 3000, &keys, flags), 1);
        }
    }
}

/// The server disables A, lets it run out and goes on with B alone.
#[test]
fn a_server_moves_from_one_key_to_the_other() {
    let mut area = both_active();
    assert_eq!(show(&mut area, 3700, &[A, B], 2), 1);
    let expected = [Some((3, 1000, 4800)), Some((3, 2000, 5400))];
    assert_eq!(both_records(&area), expected);
    let mut too_early = area.clone();
    assert_eq!(show(&mut too_early, 4799, &[B], 1), 2);
    assert_eq!(both_records(&too_early), expected);

    assert_eq!(show(&mut area, 4800, &[B], 1), 1);
    assert_eq!(both_records(&area), [Some((3, 2000, 7600)), None]);
    assert_eq!(key_slot(&area, 0), [0; 72]);
    assert_eq!(name_slot(&area, 0), [0; 272]);
    assert_eq!(name_slot(&area, 1)[..2], [1, 1]);
    let mut back = area.clone();
    assert_eq!(show(&mut back, 7599, &[A], 1), 2);
    assert_eq!(show(&mut back, 7600, &[A], 1), 0);
    assert_eq!(both_records(&back), [Some((3, 7600, 0)), None]);
}

#[test]
fn thirty_days_at_most() {
    let mut area = empty_area_two();
    assert_eq!(show(&mut area, 1000, &[A, B], 3), 0);
    assert_eq!(show(&mut area, 100_000, &[B, A], 3), 0);
    let end = Some((3, 1000, 143_200));
    assert_eq!(both_records(&area), [end, end]);
    assert_eq!(show(&mut area, 143_199, &[A, B], 0), 1);
    assert_eq!(both_records(&area), [end, end]);
}

#[test]
fn a_pin_is_not_active_at_its_end() {
    let mut area = both_active();
    assert_eq!(show(&mut area, 3799, &[A], 0), 2);
    assert_eq!(show(&mut area, 3800, &[A], 0), 1);
    assert_eq!(both_records(&area), [Some((3, 1000, 4800)), None]);
    assert_eq!(show_nothing(&mut area, 4799), 2);
    assert_eq!(show_nothing(&mut area, 4800), 0);
    assert!(records(&area)[1..].iter().all(|byte| *byte == 0));
}

#[test]
fn a_disabled_tack_makes_no_pin() {
    let mut area = empty_area_two();
    assert_eq!(show(&mut area, 1000, &[A, B], 0), 0);
    assert!(records(&area) == records(&empty_area_two()));
    assert_eq!(show(&mut area, 1000, &[A, B], 2), 0);
    assert_eq!(key_slot(&area, 0)[8..], B);
    assert_eq!(both_records(&area), [Some((3, 1000, 0)), None]);
}

/// Without an end, and past its end.
#[test]
fn a_disabled_tack_does_not_keep_an_inactive_pin() {
    let mut area = empty_area_two();
    assert_eq!(show(&mut area, 1000, &[A], 1), 0);
    let mut without_end = area.clone();
    assert_eq!(show(&mut without_end, 1600, &[A], 0), 0);
    assert!(records(&without_end) == records(&empty_area_two()));

    assert_eq!(show(&mut area, 1600, &[A], 1), 0);
    assert_eq!(show(&mut area, 2199, &[A], 0), 1);
    assert_eq!(both_records(&area), [Some((3, 1000, 2200)), None]);
    assert_eq!(show(&mut area, 2200, &[A, B], 2), 0);
    assert_eq!(key_slot(&area, 0)[8..], B);
    assert_eq!(both_records(&area), [Some((3, 2200, 0)), None]);
}

/// An enabled tack does, and makes it active again.
#[test]
fn an_enabled_tack_keeps_an_inactive_pin() {
    let mut area = both_active();
    assert_eq!(show(&mut area, 9000, &[B], 1), 0);
    assert_eq!(both_records(&area), [Some((3, 2000, 16_000)), None]);
    assert_eq!(show(&mut area, 15_999, &[B], 0), 1);
}

#[test]
fn without_an_extension_inactive_pins_go() {
    let mut area = both_active();
    assert_eq!(show_nothing(&mut area, 9000), 0);
    assert!(records(&area) == records(&empty_area_two()));
    assert_eq!(latest(&area), 9000);
}

/// A contradicted call changes no pin, not even an inactive one that it shows.
#[test]
fn a_contradicted_call_changes_no_pin() {
    let mut area = empty_area_two();
    for clock in [1000, 1600] {
        assert_eq!(show(&mut area, clock, &[A], 1), 0);
    }
    assert_eq!(show(&mut area, 2000, &[A, B], 3), 1);
    let before = area.clone();
    assert_eq!(show(&mut area, 2500, &[B, C], 3), 2);
    assert_eq!(show_nothing(&mut area, 2500), 2);
    assert!(records(&area) == records(&before));
}

/// Of two pins, only the inactive one without an enabled tack goes.
#[test]
fn each_pin_goes_by_itself() {
    for (flags, second_goes) in [(1, true), (3, false)] {
        let mut area = empty_area_two();
        for clock in [1000, 1600] {
            assert_eq!(show(&mut area, clock, &[A], 1), 0);
        }
        assert_eq!(show(&mut area, 2000, &[A, B], 3), 1);
        assert_eq!(show(&mut area, 2100, &[A, B], flags), 1);
        let second = if second_goes {
            None
        } else {
            Some((3, 2000, 2200))
        };
        assert_eq!(both_records(&area), [Some((3, 1000, 3200)), second]);
    }
}

#[test]
fn floors_rise_whatever_the_flags_and_the_verdict() {
    let raising = |min_generation| {
        let first = tack(A, min_generation, 255, u32::MAX);
        let second = tack(B, min_generation + 1, 255, u32::MAX);
        [first, second]
    };
    let mut area = both_active();
    let call = CallTwo::at(3000, "a.b").with(extension_two(&raising(4), 0));
    assert_eq!(call.number(&mut area), 1);
    assert_eq!([key_slot(&area, 0)[1], key_slot(&area, 1)[1]], [4, 5]);
    // Contradicted, because B is not shown.
    let call = CallTwo::at(3000, "a.b").with(extension_two(&raising(7)[..1], 0));
    assert_eq!(call.number(&mut area), 2);
    assert_eq!([key_slot(&area, 0)[1], key_slot(&area, 1)[1]], [7, 5]);
    // By another name, which makes no record; and a floor never falls.
    let call = CallTwo::at(3000, "other").with(extension_two(&raising(6), 0));
    assert_eq!(call.number(&mut area), 0);
    assert_eq!([key_slot(&area, 0)[1], key_slot(&area, 1)[1]], [7, 7]);
    assert_eq!(name_slot(&area, 2), [0; 272]);
}

/// The key record is reused with its floor, and goes with its last name only.
#[test]
fn two_names_on_one_key() {
    let mut area = empty_area_two();
    assert_eq!(show(&mut area, 1000, &[A], 1), 0);
    let lower = extension_two(&[tack(A, 1, 3, u32::MAX), tack(B, 2, 2, u32::MAX)], 3);
    let call = CallTwo::at(1000, "other").with(lower);
    assert_eq!(call.number(&mut area), 0);
    assert_eq!(key_slot(&area, 0)[..2], [1, 3]);
    assert_eq!(key_slot(&area, 1)[..2], [1, 2]);
    assert_eq!(name_slot(&area, 1)[..2], [1, 0]);
    assert_eq!(name_slot(&area, 2)[..2], [1, 1]);
    assert_eq!(show_nothing(&mut area, 1000), 0);
    assert_eq!(key_slot(&area, 0)[8..], A);
    assert_eq!(CallTwo::at(1000, "other").number(&mut area), 0);
    assert!(records(&area) == records(&empty_area_two()));
}

#[test]
fn new_pins_in_the_order_of_the_tacks() {
    let mut area = empty_area_two();
    assert_eq!(show(&mut area, 1000, &[B, A], 3), 0);
    assert_eq!(key_slot(&area, 0)[8..], B);
    assert_eq!(key_slot(&area, 1)[8..], A);
    assert_eq!(name_slot(&area, 0)[..2], [1, 0]);
    assert_eq!(name_slot(&area, 1)[..2], [1, 1]);
}

#[test]
fn every_spelling_is_the_same_name() {
    let mut area = both_active();
    let call = CallTwo::at(3000, "A.B").showing(&[A], 1);
    assert_eq!(call.number(&mut area), 2);
    let call = CallTwo::at(9000, "A.b").showing(&[C], 1);
    assert_eq!(call.number(&mut area), 0);
    assert_eq!(name_slot(&area, 0)[16..19], *b"a.b");
    assert_eq!(both_records(&area), [Some((3, 9000, 0)), None]);
}
