//! The examples E1 to E12 and those beside them.

use second::{is_sound, Judgement};

use crate::calls::*;

const K: [u8; 64] = [0x11; 64];

fn verdict(number: u8, alert: u8) -> Judgement {
    Judgement {
        number,
        alert,
        no_room: false,
    }
}

fn after_e4() -> Area {
    let mut area = empty_area();
    let call = Call::at(1000, "a.b").with(showing(K));
    assert_eq!(call.judge(&mut area), verdict(0, 0));
    area
}

fn after_e5() -> Area {
    let mut area = after_e4();
    let call = Call::at(1600, "a.b").with(showing(K));
    assert_eq!(call.judge(&mut area), verdict(1, 0));
    area
}

/// The end field, which must be marked present.
fn end(area: &[u8]) -> u32 {
    let slot = name_slot(area, 0);
    assert_eq!(slot[3], 1);
    u32::from_be_bytes([slot[8], slot[9], slot[10], slot[11]])
}

#[test]
fn e1_to_e3_extensions() {
    assert_eq!(second::extension::read(&[0, 0, 0, 0]).number, 9);
    assert_eq!(second::extension::read(&[0, 0, 0, 2]).number, 16);
    assert_eq!(second::extension::read(&[]).number, 16);

    let area = empty_area();
    let call = Call::at(1000, "a.b");
    let mut untouched = area.clone();
    assert_eq!(
        call.clone().with(vec![0; 4]).judge(&mut untouched),
        verdict(0, 0)
    );
    call.clone()
        .with(vec![0, 0, 0, 2])
        .is_refused(&area, 16, 50);
    call.with(vec![]).is_refused(&area, 16, 50);
}

#[test]
fn e4_makes_the_stated_table() {
    let mut expected = empty_area();
    expected[..8].copy_from_slice(&[0, 0, 0x03, 0xE8, 0, 0, 0, 0]);
    expected[8..16].copy_from_slice(&[1, 3, 0, 0, 0, 0, 0, 0]);
    expected[16..80].copy_from_slice(&[0x11; 64]);
    expected[4616..4624].copy_from_slice(&[1, 0, 3, 0, 0, 0, 0x03, 0xE8]);
    expected[4632..4635].copy_from_slice(&[0x61, 0x2E, 0x62]);
    let area = after_e4();
    assert!(area == expected);
    assert!(is_sound(&area));
}

#[test]
fn e5_to_e7_active_until_the_end() {
    let area = after_e5();
    assert_eq!(end(&area), 2200);
    assert_eq!(latest(&area), 1600);

    let before_the_end = Call::at(2199, "a.b").judge(&mut area.clone());
    assert_eq!(before_the_end, verdict(2, 49));
    let at_the_end = Call::at(2200, "a.b").judge(&mut area.clone());
    assert_eq!(at_the_end, verdict(0, 0));
}

#[test]
fn e8_thirty_days_at_most() {
    let mut area = after_e4();
    let call = Call::at(100_000, "a.b").with(showing(K));
    assert_eq!(call.judge(&mut area), verdict(1, 0));
    assert_eq!(end(&area), 143_200);
}

#[test]
fn e9_and_e10_generations() {
    let area = after_e4();
    let call = Call::at(1000, "a.b");
    let revoked = extension(&tack(K, 2, 2, u32::MAX), &[], 1);
    call.clone().with(revoked).is_refused(&area, 22, 44);
    let inconsistent = extension(&tack(K, 3, 2, u32::MAX), &[], 1);
    call.with(inconsistent).is_refused(&area, 19, 50);
}

#[test]
fn e11_clock_before_latest() {
    let call = Call::at(1599, "a.b").with(showing(K));
    call.is_refused(&after_e5(), 14, 0);
}

#[test]
fn e12_expiration_in_minutes() {
    let expiring = extension(&tack(K, 3, 3, 1000), &[], 1);
    let area = empty_area();
    let in_time = Call::at(1000, "a.b").with(expiring.clone());
    assert_eq!(in_time.judge(&mut area.clone()), verdict(0, 0));
    let late = Call::at(1001, "a.b").with(expiring);
    late.is_refused(&area, 23, 45);
}

#[test]
fn clock_limit() {
    let mut area = empty_area();
    Call::at(4_294_924_096, "a.b").is_refused(&area, 13, 0);
    Call::at(u64::from(u32::MAX) + 1, "a.b").is_refused(&area, 13, 0);
    Call::at(u64::MAX, "a.b").is_refused(&area, 13, 0);

    let first = Call::at(1, "a.b").with(showing(K));
    assert_eq!(first.number(&mut area), 0);
    let last = Call::at(4_294_924_095, "a.b").with(showing(K));
    assert_eq!(last.number(&mut area), 1);
    assert_eq!(end(&area), u32::MAX);
    assert!(is_sound(&area));
}

#[test]
fn label_limit() {
    let area = empty_area();
    assert_eq!(Call::at(1000, &"a".repeat(63)).number(&mut area.clone()), 0);
    Call::at(1000, &"a".repeat(64)).is_refused(&area, 12, 0);
}

#[test]
fn same_break_key_twice() {
    let mut once = after_e5();
    let mut twice = once.clone();
    let call = Call::at(1700, "a.b");
    assert_eq!(
        call.clone().with(breaking(&[K])).judge(&mut once),
        verdict(0, 0)
    );
    assert_eq!(
        call.with(breaking(&[K, K])).judge(&mut twice),
        verdict(0, 0)
    );
    assert!(once == twice);
    assert!(records(&once).iter().all(|byte| *byte == 0));
}
