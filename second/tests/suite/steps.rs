//! The steps of judging, apart from room and from disabled servers.

use second::is_sound;
use second::minutes::Minutes;

use crate::calls::*;

const K: [u8; 64] = [0x11; 64];
const L: [u8; 64] = [0x22; 64];

/// `a.b` on K from 1000, active from 1600 to 2200.
fn active() -> Area {
    let mut area = empty_area();
    Call::at(1000, "a.b").with(showing(K)).judge(&mut area);
    Call::at(1600, "a.b").with(showing(K)).judge(&mut area);
    area
}

#[test]
fn disabled_activation_leaves_the_end() {
    let mut area = active();
    let record = name_slot(&area, 0).to_vec();
    let call = Call::at(2000, "a.b").with(showing_disabled(K));
    assert_eq!(call.number(&mut area), 1);
    assert_eq!(name_slot(&area, 0), record);
    let call = Call::at(2200, "a.b").with(showing_disabled(K));
    assert_eq!(call.number(&mut area), 0);
    assert_eq!(name_slot(&area, 0), record);
}

#[test]
fn activation_without_a_tack_has_no_effect() {
    let mut area = active();
    let before = area.clone();
    let call = Call::at(2000, "a.b").with(vec![0, 0, 0, 1]);
    assert_eq!(call.number(&mut area), 2);
    assert!(records(&area) == records(&before));
}

#[test]
fn activation_in_the_minute_of_creation_is_no_active_pin() {
    let mut area = empty_area();
    let call = Call::at(1000, "a.b").with(showing(K));
    assert_eq!(call.number(&mut area), 0);
    assert_eq!(call.number(&mut area), 0);
    assert_eq!(name_slot(&area, 0)[3], 1);
    assert_eq!(name_slot(&area, 0)[8..12], 1000_u32.to_be_bytes());
    assert!(is_sound(&area));
}

#[test]
#[should_panic(expected = "a sound table has initial at most latest")]
fn no_span_to_a_clock_before_initial() {
    let minutes = |value: u32| Minutes::from_field(value.to_be_bytes());
    minutes(999).since(minutes(1000));
}

#[test]
fn another_key_contradicts_until_the_end_and_then_replaces() {
    let mut area = active();
    let record = name_slot(&area, 0).to_vec();
    let call = Call::at(2199, "a.b").with(showing(L));
    assert_eq!(call.number(&mut area), 2);
    assert_eq!(name_slot(&area, 0), record);
    let call = Call::at(2200, "a.b").with(showing(L));
    assert_eq!(call.number(&mut area), 0);
    assert_eq!(key_slot(&area, 0)[8..], L);
    assert_eq!(name_slot(&area, 0)[3], 0);
    assert_eq!(name_slot(&area, 0)[8..12], [0; 4]);
}

#[test]
fn without_a_tack_an_inactive_record_stays() {
    let mut area = active();
    let before = area.clone();
    assert_eq!(Call::at(9000, "a.b").number(&mut area), 0);
    assert!(records(&area) == records(&before));
    assert_eq!(latest(&area), 9000);
}

#[test]
fn the_floor_rises_and_never_falls() {
    let mut area = active();
    for (min_generation, floor) in [(5, 5), (4, 5), (255, 255)] {
        let shown = extension(&tack(K, min_generation, 255, u32::MAX), &[], 0);
        // Another name of the key raises the floor as well.
        let call = Call::at(1700, "other").with(shown);
        assert_eq!(call.number(&mut area), 0);
        assert_eq!(key_slot(&area, 0)[1], floor);
    }
}

#[test]
fn a_new_name_takes_the_floor_of_its_recorded_key() {
    let mut area = active();
    let lower = extension(&tack(K, 1, 3, u32::MAX), &[], 1);
    Call::at(1700, "other").with(lower).judge(&mut area);
    assert_eq!(key_slot(&area, 0)[1], 3);
    assert_eq!(name_slot(&area, 1)[..2], [1, 0]);
}

#[test]
fn a_break_takes_every_name_of_the_key() {
    let mut area = active();
    Call::at(1700, "c").with(showing(L)).judge(&mut area);
    Call::at(1700, "d").with(showing(K)).judge(&mut area);
    let call = Call::at(1800, "elsewhere").with(breaking(&[key(9), K]));
    assert_eq!(call.number(&mut area), 0);
    assert_eq!(key_slot(&area, 0), [0; 72]);
    assert_eq!(key_slot(&area, 1)[8..], L);
    assert_eq!(name_slot(&area, 0), [0; 272]);
    assert_eq!(name_slot(&area, 1)[..2], [1, 1]);
    assert_eq!(name_slot(&area, 2), [0; 272]);
    assert!(is_sound(&area));
}

#[test]
fn a_broken_pin_does_not_contradict() {
    let mut area = active();
    let call = Call::at(1700, "a.b").with(breaking(&[K]));
    assert_eq!(call.number(&mut area), 0);
}

#[test]
fn a_tack_and_a_break_of_one_key() {
    let both = extension(&tack(K, 3, 3, u32::MAX), &break_signature(K), 1);
    for mut area in [empty_area(), active()] {
        let call = Call::at(1700, "a.b").with(both.clone());
        assert_eq!(call.number(&mut area), 0);
        assert_eq!(latest(&area), 1700);
        assert!(records(&area).iter().all(|byte| *byte == 0));
    }
}

/// The old pin contradicts the new key's tack, so breaking it makes no new one.
#[test]
fn a_break_comes_after_creation() {
    let mut area = active();
    let both = extension(&tack(L, 3, 3, u32::MAX), &break_signature(K), 1);
    let call = Call::at(1700, "a.b").with(both);
    assert_eq!(call.number(&mut area), 0);
    assert!(records(&area).iter().all(|byte| *byte == 0));
    assert_eq!(call.number(&mut area), 0);
    assert_eq!(key_slot(&area, 0)[8..], L);
}
