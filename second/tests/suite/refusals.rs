//! Each refusal of the judge, and that the lowest number is given.

use second::alert_of;

use crate::calls::*;

const K: [u8; 64] = [0x11; 64];

/// `a.b` on K with floor 3; latest 1000.
fn pinned() -> Area {
    let mut area = empty_area();
    Call::at(1000, "a.b").with(showing(K)).judge(&mut area);
    area
}

#[test]
fn alerts() {
    let alerts = [
        (2, 49),
        (16, 50),
        (17, 51),
        (18, 51),
        (19, 50),
        (20, 47),
        (21, 51),
        (22, 44),
        (23, 45),
    ];
    for number in 0..=255 {
        let listed = alerts.iter().find(|(listed, _)| *listed == number);
        assert_eq!(alert_of(number), listed.map_or(0, |(_, alert)| *alert));
    }
}

/// Everything is wrong with this call.
fn worst_call() -> Call {
    Call {
        clock: 4_294_924_096,
        name: b"A-".to_vec(),
        extension: Some(vec![9]),
        hash: vec![0; 32],
        handshake_finished: false,
        key_is_point: false,
        signature_correct: false,
        breaks_correct: 0b1111_1101,
        learn_disabled: false,
    }
}

fn with_two_breaks(tack: &[u8]) -> Option<Vec<u8>> {
    let breaks = [break_signature(key(8)), break_signature(key(9))].concat();
    Some(extension(tack, &breaks, 1))
}

/// Each cure uncovers the next number.
#[test]
fn lowest_number_first() {
    let sound = pinned();
    let mut damaged = sound.clone();
    damaged[7] = 1;
    let mut of_edition_two = sound.clone();
    of_edition_two[4] = 1;
    let mut call = worst_call();
    call.is_refused(&damaged[1..], 10, 0);
    call.is_refused(&damaged, 11, 0);
    call.is_refused(&of_edition_two, 27, 0);
    call.is_refused(&sound, 12, 0);
    call.name = b"a.b".to_vec();
    call.is_refused(&sound, 13, 0);
    call.clock = 999;
    call.is_refused(&sound, 14, 0);
    call.clock = 1000;
    call.is_refused(&sound, 15, 0);
    call.handshake_finished = true;
    call.is_refused(&sound, 16, 50);
    call.extension = with_two_breaks(&tack(K, 2, 1, 999));
    call.is_refused(&sound, 17, 51);
    call.breaks_correct = 0b11;
    call.is_refused(&sound, 18, 51);
    call.key_is_point = true;
    call.is_refused(&sound, 19, 50);
    call.extension = with_two_breaks(&tack(K, 2, 2, 999));
    call.is_refused(&sound, 20, 47);
    call.hash = HASH.to_vec();
    call.is_refused(&sound, 21, 51);
    call.signature_correct = true;
    call.is_refused(&sound, 22, 44);
    call.extension = with_two_breaks(&tack(K, 3, 3, 999));
    call.is_refused(&sound, 23, 45);
    call.extension = with_two_breaks(&tack(K, 3, 3, 1000));
    assert_eq!(call.number(&mut sound.clone()), 0);
}

#[test]
fn area_of_another_length() {
    for length in [0, 1, 39_431, 39_433] {
        Call::at(1000, "a.b").is_refused(&vec![0; length], 10, 0);
    }
}

/// The initial of the pin is latest; its tack is shown with activation 1.
#[test]
fn a_clock_before_initial_is_before_latest() {
    let area = pinned();
    let call = Call::at(999, "a.b").with(showing(K));
    call.is_refused(&area, 14, 0);
}

#[test]
fn each_break_signature_must_be_correct() {
    let keys: Vec<[u8; 64]> = (0..8).map(key).collect();
    let area = empty_area();
    for count in 1..=8 {
        let mut call = Call::at(1000, "a.b").with(breaking(&keys[..count]));
        for index in 0..count {
            call.breaks_correct = !(1 << index);
            call.is_refused(&area, 17, 51);
        }
        // Bits for absent break signatures are ignored.
        call.breaks_correct = 0xFF >> (8 - count);
        assert_eq!(call.number(&mut area.clone()), 0);
    }
}

#[test]
fn answers_for_absent_things_are_ignored() {
    let mut call = Call::at(1000, "a.b");
    call.hash = Vec::new();
    call.key_is_point = false;
    call.signature_correct = false;
    call.breaks_correct = 0;
    assert_eq!(call.number(&mut empty_area()), 0);
    let call = call.with(vec![0, 0, 0, 1]);
    assert_eq!(call.number(&mut empty_area()), 0);
}

#[test]
fn a_hash_of_another_length_is_unequal() {
    let area = empty_area();
    let longer = [HASH.as_slice(), &[0]].concat();
    for hash in [vec![], HASH[..31].to_vec(), longer] {
        let mut call = Call::at(1000, "a.b").with(showing(K));
        call.hash = hash;
        call.is_refused(&area, 20, 47);
    }
}

/// 23 is the one refusal that does.
#[test]
fn a_refused_tack_does_not_raise_the_floor() {
    let area = pinned();
    let raising = extension(&tack(K, 9, 9, u32::MAX), &[], 1);
    let mut call = Call::at(1000, "a.b").with(raising);
    call.hash = vec![0; 32];
    call.is_refused(&area, 20, 47);
}

#[test]
fn the_floor_counts_for_every_name_of_the_key() {
    let area = pinned();
    let revoked = extension(&tack(K, 0, 2, u32::MAX), &[], 0);
    Call::at(1000, "other")
        .with(revoked)
        .is_refused(&area, 22, 44);
}
