//! Deletion, inspection and starting.

use second::{delete, inspect, start, Inspection, Outcome};

use crate::calls::*;

const K: [u8; 64] = [0x11; 64];

fn outcome(number: u8) -> Outcome {
    Outcome { number, alert: 0 }
}

fn nothing_shown(number: u8) -> Inspection {
    Inspection {
        number,
        alert: 0,
        floor: 0,
        initial: 0,
        end: 0,
        minutes_left: 0,
    }
}

/// `a.b` and `c` on one key, the first with end 2200; latest 1600.
fn two_names() -> Area {
    let mut area = empty_area();
    Call::at(1000, "a.b").with(showing(K)).judge(&mut area);
    Call::at(1600, "a.b").with(showing(K)).judge(&mut area);
    Call::at(1600, "c").with(showing(K)).judge(&mut area);
    area
}

#[test]
fn deletion_takes_the_key_with_the_last_name() {
    let mut area = two_names();
    let key_record = key_slot(&area, 0).to_vec();
    assert_eq!(delete(&mut area, b"a.b"), outcome(3));
    assert_eq!(key_slot(&area, 0), key_record);
    assert_eq!(name_slot(&area, 0), [0; 272]);
    assert_eq!(delete(&mut area, b"a.b"), outcome(4));
    assert_eq!(delete(&mut area, b"c"), outcome(3));
    assert!(records(&area).iter().all(|byte| *byte == 0));
    assert_eq!(latest(&area), 1600);
}

#[test]
fn a_missing_name_leaves_the_table() {
    let area = two_names();
    let mut after = area.clone();
    assert_eq!(delete(&mut after, b"d"), outcome(4));
    assert!(after == area);
    assert_eq!(inspect(&area, b"d", 0, false), nothing_shown(4));
}

#[test]
fn inspection_with_and_without_end() {
    let area = two_names();
    for (clock, minutes_left) in [(0, 2200), (1599, 601), (2200, 0), (2201, -1)] {
        let expected = Inspection {
            number: 6,
            alert: 0,
            floor: 3,
            initial: 1000,
            end: 2200,
            minutes_left,
        };
        assert_eq!(inspect(&area, b"a.b", clock, false), expected);
    }
    let last_clock = inspect(&area, b"a.b", 4_294_924_095, false);
    assert_eq!(last_clock.minutes_left, 2200 - 4_294_924_095);
    let without_end = Inspection {
        floor: 3,
        initial: 1600,
        ..nothing_shown(5)
    };
    assert_eq!(inspect(&area, b"c", 5000, false), without_end);
}

#[test]
fn refusals_of_deletion_in_order() {
    let sound = two_names();
    let mut damaged = sound.clone();
    damaged[7] = 1;
    let cases: [(&[u8], &[u8], u8); 3] = [
        (&damaged[1..], b"A-", 10),
        (&damaged, b"A-", 11),
        (&sound, b"A-", 12),
    ];
    for (area, name, number) in cases {
        let mut after = area.to_vec();
        assert_eq!(delete(&mut after, name), outcome(number));
        assert!(after == area);
    }
}

#[test]
fn refusals_of_inspection_in_order() {
    let sound = two_names();
    let mut damaged = sound.clone();
    damaged[7] = 1;
    let late = 4_294_924_096;
    assert_eq!(inspect(&[], b"A-", late, false), nothing_shown(10));
    assert_eq!(inspect(&damaged, b"A-", late, false), nothing_shown(11));
    assert_eq!(inspect(&sound, b"A-", late, false), nothing_shown(12));
    assert_eq!(inspect(&sound, b"a.b", late, false), nothing_shown(13));
    assert_eq!(inspect(&sound, b"d", u64::MAX, false), nothing_shown(13));
}

#[test]
fn starting_clears_whatever_was_there() {
    for mut area in [two_names(), vec![0xFF; 39_432]] {
        assert_eq!(start(&mut area, false), outcome(7));
        assert!(area == empty_area());
    }
    for length in [0, 39_431, 39_433] {
        let mut area = vec![0xFF; length];
        assert_eq!(start(&mut area, false), outcome(10));
        assert!(area.iter().all(|byte| *byte == 0xFF));
    }
}
