//! Deletion, inspection and starting in edition two.

use second::{delete, inspect, is_sound, start, Inspection, Outcome};

use crate::calls::*;
use crate::calls_two::*;

const A: [u8; 64] = [0x11; 64];
const B: [u8; 64] = [0x22; 64];

fn outcome(number: u8) -> Outcome {
    Outcome { number, alert: 0 }
}

fn nothing_shown(number: u8) -> Inspection {
    Inspection {
        number,
        alert: 0,
        floor: 0,
        initial: 0,
        end: 0,
        minutes_left: 0,
    }
}

/// `a.b` on A from 1000, without end, and on B from 1000 to 1800; `c` on B;
/// latest 1400. The record on A has slot 1, the one on B slot 0.
fn two_records() -> Area {
    let mut area = empty_area_two();
    let tacks = [tack(B, 2, 3, u32::MAX), tack(A, 3, 3, u32::MAX)];
    let call = CallTwo::at(1000, "a.b").with(extension_two(&tacks, 3));
    assert_eq!(call.number(&mut area), 0);
    let call = CallTwo::at(1400, "c").showing(&[B], 1);
    assert_eq!(call.number(&mut area), 0);
    let extended = 1800_u32.to_be_bytes();
    let slot = 4616;
    area[slot + 3] = 1;
    area[slot + 8..slot + 12].copy_from_slice(&extended);
    assert!(is_sound(&area));
    area
}

#[test]
fn starting_sets_the_edition() {
    for before in [two_records(), vec![0xFF; 39_432], empty_area()] {
        let mut area = before.clone();
        assert_eq!(start(&mut area, true), outcome(7));
        assert!(area == empty_area_two());
        assert_eq!(start(&mut area, false), outcome(7));
        assert!(area == empty_area());
    }
    for length in [0, 39_431, 39_433] {
        let mut area = vec![0xFF; length];
        assert_eq!(start(&mut area, true), outcome(10));
        assert!(area.iter().all(|byte| *byte == 0xFF));
    }
}

#[test]
fn inspection_by_slot_order() {
    let area = two_records();
    let first = Inspection {
        floor: 3,
        initial: 1000,
        end: 1800,
        minutes_left: 300,
        ..nothing_shown(6)
    };
    assert_eq!(inspect(&area, b"A.b", 1500, false), first);
    let second = Inspection {
        floor: 3,
        initial: 1000,
        ..nothing_shown(5)
    };
    assert_eq!(inspect(&area, b"a.B", 1500, true), second);
    assert_eq!(inspect(&area, b"c", 1500, false).initial, 1400);
    assert_eq!(inspect(&area, b"c", 1500, true), nothing_shown(4));
    for second in [false, true] {
        assert_eq!(inspect(&area, b"d", 1500, second), nothing_shown(4));
    }
}

/// The record that is made later may stand first.
#[test]
fn a_later_record_in_a_lower_slot() {
    let mut area = empty_area_two();
    let call = CallTwo::at(1000, "other").showing(&[key(9)], 1);
    assert_eq!(call.number(&mut area), 0);
    let call = CallTwo::at(1000, "a.b").showing(&[A], 1);
    assert_eq!(call.number(&mut area), 0);
    assert_eq!(delete(&mut area, b"other"), outcome(3));
    let call = CallTwo::at(1100, "a.b").showing(&[A, B], 3);
    assert_eq!(call.number(&mut area), 0);
    assert_eq!(key_slot(&area, 0)[8..], B);
    assert_eq!(inspect(&area, b"a.b", 1100, false).initial, 1100);
    let second = inspect(&area, b"a.b", 1100, true);
    assert_eq!((second.initial, second.end), (1000, 1200));
}

#[test]
fn deletion_takes_both_records() {
    let mut area = two_records();
    let shared_key = key_slot(&area, 0).to_vec();
    assert_eq!(delete(&mut area, b"A.B"), outcome(3));
    assert_eq!(name_slot(&area, 0), [0; 272]);
    assert_eq!(name_slot(&area, 1), [0; 272]);
    assert_eq!(name_slot(&area, 2)[..3], [1, 0, 1]);
    // `c` still stands on B, nothing on A.
    assert_eq!(key_slot(&area, 0), shared_key);
    assert_eq!(key_slot(&area, 1), [0; 72]);
    assert!(is_sound(&area));
    assert_eq!(delete(&mut area, b"a.b"), outcome(4));
    assert_eq!(delete(&mut area, b"c"), outcome(3));
    assert!(records(&area) == records(&empty_area_two()));
    assert_eq!(latest(&area), 1400);
}

#[test]
fn a_missing_name_leaves_the_table() {
    let area = two_records();
    let mut after = area.clone();
    assert_eq!(delete(&mut after, b"d"), outcome(4));
    assert!(after == area);
}

#[test]
fn refusals_in_order() {
    let sound = two_records();
    let mut damaged = sound.clone();
    damaged[5] = 1;
    let late = 4_294_924_096;
    for (area, number) in [(&damaged[1..], 10), (&damaged, 11), (&sound, 12)] {
        let mut after = area.to_vec();
        assert_eq!(delete(&mut after, b"A-"), outcome(number));
        assert!(after == area);
        for second in [false, true] {
            let inspection = inspect(area, b"A-", late, second);
            assert_eq!(inspection, nothing_shown(number));
        }
    }
    for name in [&b"a.b"[..], b"c", b"d"] {
        assert_eq!(inspect(&sound, name, late, true), nothing_shown(13));
    }
}

/// In edition one the second record of a name is always missing.
#[test]
fn the_second_record_in_edition_one() {
    let mut area = empty_area();
    Call::at(1000, "a.b").with(showing(A)).judge(&mut area);
    assert_eq!(inspect(&area, b"a.b", 0, false).number, 5);
    assert_eq!(inspect(&area, b"a.b", 0, true), nothing_shown(4));
    let late = 4_294_924_096;
    assert_eq!(inspect(&area, b"a.b", late, true), nothing_shown(13));
    assert_eq!(inspect(&area, b"A-", late, true), nothing_shown(12));
}
