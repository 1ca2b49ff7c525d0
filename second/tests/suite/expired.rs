//! "An expired tack still revokes": 23 of edition one may raise a floor, and
//! changes nothing else. 23 of edition two changes nothing.

use second::{inspect, judge_kept, parse, report, Judgement};

use crate::calls::*;
use crate::calls_two::*;
use crate::night::night_of;

const K: [u8; 64] = [0x11; 64];
const L: [u8; 64] = [0x22; 64];
const UNRECORDED: [u8; 64] = [0x33; 64];

/// `a.b` on K in key slot 0, active until 2200, and `c` on L in key slot 1, never
/// activated; both floors are 3; latest 1600.
fn pinned() -> Area {
    let mut area = empty_area();
    for (clock, name, key) in [(1000, "a.b", K), (1000, "c", L), (1600, "a.b", K)] {
        let judgement = Call::at(clock, name).with(showing(key)).judge(&mut area);
        assert!(judgement.number <= 1 && !judgement.no_room);
    }
    area
}

fn with_floor(mut area: Area, key_slot: usize, floor: u8) -> Area {
    area[8 + 72 * key_slot + 1] = floor;
    area
}

/// Expired a minute before the clock.
fn expired(clock: u64, key: [u8; 64], min_generation: u8, generation: u8) -> Vec<u8> {
    tack(key, min_generation, generation, clock as u32 - 1)
}

/// A call with such a tack, enabled.
fn call(clock: u64, name: &str, key: [u8; 64], min_generation: u8, generation: u8) -> Call {
    let tack = expired(clock, key, min_generation, generation);
    Call::at(clock, name).with(extension(&tack, &[], 1))
}

/// Asserts a refusal in both ways and the whole table after it.
#[track_caller]
fn answers(call: &Call, before: &[u8], number: u8, alert: u8, expected: &[u8]) {
    for call in call.in_both_ways() {
        answers_in_one_way(&call, before, number, alert, expected);
    }
}

/// The table is lent as an area and kept parsed.
#[track_caller]
fn answers_in_one_way(call: &Call, before: &[u8], number: u8, alert: u8, expected: &[u8]) {
    let judgement = Judgement {
        number,
        alert,
        no_room: false,
    };
    let mut after = before.to_vec();
    assert_eq!(call.judge(&mut after), judgement);
    assert!(
        after == expected,
        "the area after {number} is not as expected"
    );

    let mut kept = parse(before).expect("sound");
    assert_eq!(judge_kept(&mut kept, &call.connection()), judgement);
    let expected = parse(expected).expect("sound");
    assert!(
        kept == expected,
        "the kept table after {number} is not as expected"
    );
}

#[track_caller]
fn is_expired(call: &Call, before: &[u8], expected: &[u8]) {
    answers(call, before, 23, 45, expected);
}

/// Whatever record the name has, active or not, with this key or another.
#[test]
fn a_higher_min_generation_raises_the_floor_and_nothing_else() {
    let area = pinned();
    for name in ["a.b", "c", "new"] {
        for clock in [1600, 1700, 2200, 4_294_924_095] {
            for min_generation in [4, 5, 255] {
                let shown = call(clock, name, K, min_generation, 255);
                is_expired(&shown, &area, &with_floor(area.clone(), 0, min_generation));
                let shown = call(clock, name, L, min_generation, 255);
                is_expired(&shown, &area, &with_floor(area.clone(), 1, min_generation));
            }
        }
    }
}

#[test]
fn activation_makes_no_difference() {
    let area = pinned();
    for activation in [0, 1] {
        let shown = extension(&expired(1700, K, 5, 5), &[], activation);
        let call = Call::at(1700, "a.b").with(shown);
        is_expired(&call, &area, &with_floor(area.clone(), 0, 5));
    }
}

#[test]
fn an_equal_min_generation_changes_nothing() {
    let area = pinned();
    for generation in [3, 4, 255] {
        let shown = call(1700, "a.b", K, 3, generation);
        is_expired(&shown, &area, &area);
    }
}

/// The generation is not below the floor, or it would be 22.
#[test]
fn a_lower_min_generation_changes_nothing() {
    let area = pinned();
    for min_generation in [0, 1, 2] {
        for generation in [3, 4, 255] {
            let shown = call(1700, "a.b", K, min_generation, generation);
            is_expired(&shown, &area, &area);
        }
    }
}

#[test]
fn an_unrecorded_key_gets_no_record() {
    for area in [empty_area(), pinned()] {
        for name in ["a.b", "c", "new"] {
            for min_generation in [0, 3, 9] {
                let shown = call(1700, name, UNRECORDED, min_generation, 9);
                is_expired(&shown, &area, &area);
            }
        }
    }
}

/// There would be no room for a record, but none is wanted.
#[test]
fn a_full_table_has_no_lack_of_room() {
    let mut area = empty_area();
    for number in 0..128 {
        let name = format!("host{number}");
        let call = Call::at(1000, &name).with(showing(key(number / 2)));
        assert!(!call.judge(&mut area).no_room);
    }
    for name in ["host0", "new"] {
        // In the minute before, at its expiration, it finds no room.
        let mut in_time = call(1700, name, key(64), 9, 9);
        in_time.clock = 1699;
        assert!(in_time.judge(&mut area.clone()).no_room);

        let unrecorded = call(1700, name, key(64), 9, 9);
        is_expired(&unrecorded, &area, &area);
        let recorded = call(1700, name, key(63), 9, 9);
        is_expired(&recorded, &area, &with_floor(area.clone(), 63, 9));
    }
}

/// The floor still rises, that of the broken key among them.
#[test]
fn no_break_signature_acts() {
    let area = pinned();
    let both = [break_signature(L), break_signature(K)].concat();
    for breaks in [break_signature(K), break_signature(L), both] {
        for (min_generation, floor) in [(5, 5), (3, 3), (1, 3)] {
            let shown = extension(&expired(1700, K, min_generation, 5), &breaks, 1);
            let call = Call::at(1700, "a.b").with(shown);
            is_expired(&call, &area, &with_floor(area.clone(), 0, floor));
        }
        let shown = extension(&expired(1700, UNRECORDED, 5, 5), &breaks, 1);
        is_expired(&Call::at(1700, "a.b").with(shown), &area, &area);
    }
}

#[test]
fn latest_stays() {
    let mut area = pinned();
    assert_eq!(call(5000, "a.b", K, 5, 5).number(&mut area), 23);
    assert_eq!(latest(&area), 1600);
    // So a clock between the two is not before latest.
    assert_eq!(Call::at(1601, "a.b").number(&mut area), 2);
    assert_eq!(latest(&area), 1601);
}

#[test]
fn a_generation_below_the_raised_floor_is_revoked() {
    let mut area = pinned();
    let shown = |min_generation, generation, expiration| {
        let tack = tack(K, min_generation, generation, expiration);
        Call::at(1700, "a.b").with(extension(&tack, &[], 1))
    };
    assert_eq!(shown(3, 4, u32::MAX).number(&mut area.clone()), 1);
    assert_eq!(shown(5, 6, 1699).number(&mut area), 23);
    assert_eq!(inspect(&area, b"a.b", 1700, false).floor, 5);
    // 22 comes before 23, so an expired tack is revoked as well.
    for expiration in [1699, 1700, u32::MAX] {
        answers(&shown(3, 4, expiration), &area, 22, 44, &area);
    }
    assert_eq!(shown(3, 5, u32::MAX).number(&mut area), 1);
}

#[test]
fn one_expired_tack_after_another() {
    let mut area = pinned();
    for (min_generation, floor) in [(5, 5), (4, 5), (5, 5), (7, 7)] {
        let expected = with_floor(area.clone(), 0, floor);
        let shown = call(1700, "a.b", K, min_generation, 7);
        is_expired(&shown, &area, &expected);
        area = expected;
    }
}

/// A tack is good in the minute of its expiration.
#[test]
fn expiration_at_the_clock_is_a_verdict() {
    for (expiration, number, latest_after) in [(1699, 23, 1600), (1700, 1, 1700)] {
        let mut area = pinned();
        let shown = extension(&tack(K, 5, 5, expiration), &[], 1);
        let call = Call::at(1700, "a.b").with(shown);
        assert_eq!(call.number(&mut area), number);
        assert_eq!(latest(&area), latest_after);
        assert_eq!(key_slot(&area, 0)[1], 5);
    }
}

/// "All other refusals still change nothing", though the tack is expired and its
/// min_generation above the floor; at 22 it cannot be.
#[test]
fn other_refusals_change_nothing() {
    let area = pinned();
    let shown = extension(&tack(K, 9, 9, 999), &[], 1);
    let good = Call::at(1700, "a.b").with(shown);
    is_expired(&good, &area, &with_floor(area.clone(), 0, 9));
    let is_refused = |number, alert, change: fn(&mut Call)| {
        let mut call = good.clone();
        change(&mut call);
        answers(&call, &area, number, alert, &area);
    };
    is_refused(12, 0, |call| call.name = b"a-".to_vec());
    is_refused(13, 0, |call| call.clock = 4_294_924_096);
    is_refused(14, 0, |call| call.clock = 1599);
    is_refused(15, 0, |call| call.handshake_finished = false);
    is_refused(16, 50, |call| call.extension.as_mut().unwrap().push(1));
    is_refused(17, 51, |call| {
        call.extension = Some(extension(&tack(K, 9, 9, 999), &break_signature(L), 1));
        call.breaks_correct = 0;
    });
    is_refused(18, 51, |call| call.key_is_point = false);
    is_refused(19, 50, |call| {
        call.extension = Some(extension(&tack(K, 9, 8, 999), &[], 1));
    });
    is_refused(20, 47, |call| call.hash = vec![0; 32]);
    is_refused(21, 51, |call| call.signature_correct = false);
    is_refused(22, 44, |call| {
        call.extension = Some(extension(&tack(K, 2, 2, 999), &[], 1));
    });
}

#[test]
fn other_tables_stay_as_they_are() {
    let good = call(1700, "a.b", K, 9, 9);
    good.is_refused(&pinned()[1..], 10, 0);
    let mut damaged = pinned();
    damaged[7] = 1;
    good.is_refused(&damaged, 11, 0);
    let mut of_edition_two = pinned();
    of_edition_two[4] = 1;
    answers(&good, &of_edition_two, 27, 0, &of_edition_two);
}

/// The kept table of a night: the floor rises, and generation 4 is revoked.
#[test]
fn in_a_night() {
    let shown = |clock, min_generation, generation, expiration| {
        let tack = tack(K, min_generation, generation, expiration);
        Call::at(clock, "a.b").with(extension(&tack, &[], 1))
    };
    let night = night_of(&[
        shown(1000, 3, 3, u32::MAX),
        shown(1600, 3, 4, u32::MAX),
        shown(5000, 5, 5, 4999),
        shown(1700, 3, 4, u32::MAX),
        shown(1700, 3, 5, u32::MAX),
    ]);
    let lines = "0 0 0 0\n1 1 0 0\n2 23 45 0\n3 22 44 0\n4 1 0 0\ntotal 5\n";
    assert_eq!(String::from_utf8(report(&night)).unwrap(), lines);
}

/// "Edition two stays": here a tack is expired at its expiration too.
#[test]
fn edition_two_raises_no_floor() {
    let mut area = empty_area_two();
    let pinning = CallTwo::at(1000, "a.b").showing(&[K, L], 3);
    assert_eq!(pinning.number(&mut area), 0);
    let good = tack(L, 9, 9, u32::MAX);
    for expiration in [0, 1699, 1700] {
        let raising = tack(K, 9, 9, expiration);
        let both = [raising.clone(), tack(L, 9, 9, expiration)];
        let first = [raising.clone(), good.clone()];
        let second = [good.clone(), raising.clone()];
        for tacks in [&[raising][..], &both, &first, &second] {
            for flags in [0, 1] {
                let shown = extension_two(tacks, flags);
                let call = CallTwo::at(1700, "a.b").with(shown);
                call.is_refused(&area, 23, 45);
            }
        }
    }
}
