//! Each refusal of the judge of edition two, and their order; 27 by both judges.

use second::{alert_of, alert_of_two, judge_kept, parse, Judgement};

use crate::calls::*;
use crate::calls_two::*;

const K: [u8; 64] = [0x11; 64];
const L: [u8; 64] = [0x22; 64];

/// `a.b` on K and on L, both with floor 3; latest 1000.
fn pinned() -> Area {
    let mut area = empty_area_two();
    let call = CallTwo::at(1000, "a.b").showing(&[K, L], 3);
    assert_eq!(call.number(&mut area), 0);
    area
}

#[test]
fn alerts() {
    for number in 0..=255 {
        let expected = match number {
            16 | 18..=21 | 24 => 42,
            _ => alert_of(number),
        };
        assert_eq!(alert_of_two(number), expected);
    }
    for (number, alert) in [(2, 49), (22, 44), (23, 45), (27, 0)] {
        assert_eq!(alert_of_two(number), alert);
    }
}

/// A tack whose target hash is not that of the calls.
fn elsewhere(mut tack: Vec<u8>) -> Vec<u8> {
    tack[70..102].fill(0x78);
    tack
}

/// Everything is wrong with this call.
fn worst_call() -> CallTwo {
    CallTwo {
        clock: 4_294_924_096,
        name: b"A-".to_vec(),
        extension: Some(vec![9]),
        hash: vec![0; 32],
        handshake_finished: false,
        keys_are_points: 0,
        signatures_correct: 0,
    }
}

/// Each cure uncovers the next number.
#[test]
fn refusals_up_to_24() {
    let sound = pinned();
    let mut damaged = sound.clone();
    damaged[7] = 1;
    let mut call = worst_call();
    call.is_refused(&damaged[1..], 10, 0);
    call.is_refused(&damaged, 11, 0);
    call.is_refused(&empty_area(), 27, 0);
    call.is_refused(&sound, 12, 0);
    call.name = b"a.b".to_vec();
    call.is_refused(&sound, 13, 0);
    call.clock = 999;
    call.is_refused(&sound, 14, 0);
    call.clock = 1000;
    call.is_refused(&sound, 15, 0);
    call.handshake_finished = true;
    call.is_refused(&sound, 16, 42);
    let worst_tack = elsewhere(tack(K, 2, 1, 1000));
    call.extension = Some(extension_two(&[worst_tack.clone(), worst_tack], 3));
    call.is_refused(&sound, 24, 42);
}

/// All of the first tack's numbers come before the second's.
#[test]
fn refusals_of_each_tack_in_order() {
    let sound = pinned();
    let mut call = CallTwo::at(1000, "a.b");
    (call.keys_are_points, call.signatures_correct) = (0, 0);
    let worst = |key| elsewhere(tack(key, 2, 1, 1000));
    let mut show = |bits: u8, tacks: [Vec<u8>; 2], number, alert| {
        call.keys_are_points = bits & 0b11;
        call.signatures_correct = bits >> 2;
        call.extension = Some(extension_two(&tacks, 0));
        call.is_refused(&sound, number, alert);
    };
    show(0b0000, [worst(K), worst(L)], 18, 42);
    show(0b0001, [worst(K), worst(L)], 19, 42);
    let expired = |key| elsewhere(tack(key, 2, 2, 1000));
    show(0b0001, [expired(K), worst(L)], 23, 45);
    let unequal = |key| elsewhere(tack(key, 2, 2, 1001));
    show(0b0001, [unequal(K), worst(L)], 20, 42);
    let revoked = |key| tack(key, 2, 2, 1001);
    show(0b0001, [revoked(K), worst(L)], 21, 42);
    show(0b0101, [revoked(K), worst(L)], 18, 42);
    show(0b0111, [revoked(K), worst(L)], 19, 42);
    show(0b0111, [revoked(K), expired(L)], 23, 45);
    show(0b0111, [revoked(K), unequal(L)], 20, 42);
    show(0b0111, [revoked(K), revoked(L)], 21, 42);
    show(0b1111, [revoked(K), revoked(L)], 22, 44);
    let good = |key| tack(key, 3, 3, 1001);
    show(0b1111, [revoked(K), good(L)], 22, 44);
    show(0b1111, [good(K), revoked(L)], 22, 44);
    let call = CallTwo::at(1000, "a.b").with(extension_two(&[good(K), good(L)], 0));
    assert_eq!(call.number(&mut sound.clone()), 0);
}

#[test]
fn expiration_at_the_clock_is_expired() {
    let area = empty_area_two();
    for (expiration, is_expired) in [(0, true), (999, true), (1000, true), (1001, false)] {
        let one = [tack(K, 3, 3, expiration)];
        let second = [tack(L, 3, 3, u32::MAX), tack(K, 3, 3, expiration)];
        for tacks in [&one[..], &second] {
            let call = CallTwo::at(1000, "a.b").with(extension_two(tacks, 1));
            if is_expired {
                call.is_refused(&area, 23, 45);
            } else {
                assert_eq!(call.number(&mut area.clone()), 0);
            }
        }
    }
}

/// At the last clock, and of a tack that never expires.
#[test]
fn expiration_at_the_last_clock() {
    let area = empty_area_two();
    let at = |expiration| {
        let shown = extension_two(&[tack(K, 3, 3, expiration)], 1);
        CallTwo::at(4_294_924_095, "a.b").with(shown)
    };
    at(4_294_924_095).is_refused(&area, 23, 45);
    assert_eq!(at(4_294_924_096).number(&mut area.clone()), 0);
    assert_eq!(at(u32::MAX).number(&mut area.clone()), 0);
}

#[test]
fn one_key_twice_whatever_else_differs() {
    let area = empty_area_two();
    for flags in 0..=3 {
        let tacks = [tack(K, 1, 2, 5000), tack(K, 3, 4, 6000)];
        let call = CallTwo::at(1000, "a.b").with(extension_two(&tacks, flags));
        call.is_refused(&area, 24, 42);
    }
    let mut nearly = K;
    nearly[63] ^= 1;
    let call = CallTwo::at(1000, "a.b").showing(&[K, nearly], 3);
    assert_eq!(call.number(&mut area.clone()), 0);
}

#[test]
fn malformed_extensions() {
    let area = pinned();
    let call = CallTwo::at(1000, "a.b");
    for bytes in [vec![], vec![0; 3], vec![0; 4], showing(K)] {
        call.clone().with(bytes).is_refused(&area, 16, 42);
    }
    call.clone().showing(&[K], 2).is_refused(&area, 16, 42);
    call.clone().showing(&[K], 4).is_refused(&area, 16, 42);
    call.showing(&[K, L], 4).is_refused(&area, 16, 42);
}

#[test]
fn answers_for_absent_things_are_ignored() {
    let mut call = CallTwo::at(1000, "a.b");
    call.hash = Vec::new();
    (call.keys_are_points, call.signatures_correct) = (0, 0);
    assert_eq!(call.number(&mut empty_area_two()), 0);
    for (answers, tacks) in [(0b01, &[K][..]), (0xFF, &[K]), (0b11, &[K, L])] {
        let mut call = CallTwo::at(1000, "a.b").showing(tacks, 1);
        (call.keys_are_points, call.signatures_correct) = (answers, answers);
        assert_eq!(call.number(&mut empty_area_two()), 0);
    }
    let mut call = CallTwo::at(1000, "a.b").showing(&[K], 1);
    call.keys_are_points = 0xFE;
    call.is_refused(&empty_area_two(), 18, 42);
}

#[test]
fn a_hash_of_another_length_is_unequal() {
    let area = empty_area_two();
    let longer = [HASH.as_slice(), &[0]].concat();
    for hash in [vec![], HASH[..31].to_vec(), longer] {
        let mut call = CallTwo::at(1000, "a.b").showing(&[K], 1);
        call.hash = hash;
        call.is_refused(&area, 20, 42);
    }
}

/// The floor of the good tack is not raised when the other is refused.
#[test]
fn a_refusal_of_one_tack_raises_no_floor() {
    let area = pinned();
    let raising = tack(K, 9, 9, u32::MAX);
    for bad in [tack(L, 3, 3, 1000), tack(L, 2, 2, u32::MAX)] {
        for tacks in [[raising.clone(), bad.clone()], [bad, raising.clone()]] {
            let call = CallTwo::at(1000, "a.b").with(extension_two(&tacks, 3));
            let number = call.number(&mut area.clone());
            assert!(number == 22 || number == 23);
            call.is_refused(&area, number, alert_of_two(number));
        }
    }
}

/// "Judging for the other edition is 27, after 11, nothing changed."
#[test]
fn the_other_edition() {
    for area in [empty_area_two(), pinned()] {
        Call::at(1000, "a.b").is_refused(&area, 27, 0);
        Call::at(5000, "A-").with(vec![9]).is_refused(&area, 27, 0);
        Call::at(u64::MAX, "a.b").is_refused(&area, 27, 0);
    }
    let mut of_edition_one = empty_area();
    let call = Call::at(1000, "a.b").with(showing(K));
    assert_eq!(call.number(&mut of_edition_one), 0);
    for area in [empty_area(), of_edition_one] {
        CallTwo::at(1000, "a.b").is_refused(&area, 27, 0);
        worst_call().is_refused(&area, 27, 0);
    }
}

#[test]
fn a_damaged_table_of_the_other_edition() {
    for edition in [0, 1, 2] {
        let mut area = empty_area();
        area[4] = edition;
        area[5] = 1;
        Call::at(1000, "a.b").is_refused(&area, 11, 0);
        CallTwo::at(1000, "a.b").is_refused(&area, 11, 0);
        Call::at(1000, "a.b").is_refused(&area[1..], 10, 0);
        CallTwo::at(1000, "a.b").is_refused(&area[1..], 10, 0);
    }
}

#[test]
fn a_kept_table_is_judged_in_edition_one() {
    let mut table = parse(&pinned()).expect("sound");
    let before = table.clone();
    let call = Call::at(5000, "a.b").with(showing(K));
    let refusal = Judgement {
        number: 27,
        alert: 0,
        no_room: false,
    };
    assert_eq!(judge_kept(&mut table, &call.connection()), refusal);
    assert!(table == before);
}
