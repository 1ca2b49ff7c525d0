//! Names in capitals: every spelling is the same name, kept in small letters.

use second::{delete, inspect, is_sound, judge_kept, parse, PinTable};

use crate::calls::*;
use crate::journal::Random;
use crate::night::any_night;

const K: [u8; 64] = [0x11; 64];

/// Each small letter stays or becomes a capital.
pub fn any_spelling(random: &mut Random, name: &[u8]) -> Vec<u8> {
    let spell = |byte: &u8| match random.below(2) {
        0 => *byte,
        _ => byte.to_ascii_uppercase(),
    };
    name.iter().map(spell).collect()
}

pub fn respelled(random: &mut Random, call: &Call) -> Call {
    Call {
        name: any_spelling(random, &call.name),
        ..call.clone()
    }
}

pub fn respelled_night(seed: u64, calls: &[Call]) -> Vec<Call> {
    let mut random = Random(seed);
    let calls = calls.iter();
    calls.map(|call| respelled(&mut random, call)).collect()
}

/// The table after E5: `a.b` on K from 1000, active until 2200.
fn active() -> Area {
    let mut area = empty_area();
    Call::at(1000, "a.b").with(showing(K)).judge(&mut area);
    Call::at(1600, "a.b").with(showing(K)).judge(&mut area);
    area
}

/// The table after one call that makes a name record.
fn recording(name: &str) -> Area {
    let mut area = empty_area();
    let call = Call::at(1000, name).with(showing(K));
    assert_eq!(call.number(&mut area), 0);
    assert!(is_sound(&area));
    area
}

#[test]
fn a_table_keeps_small_letters_only() {
    let area = recording("Desk.Example");
    assert_eq!(name_slot(&area, 0)[2], 12);
    assert_eq!(name_slot(&area, 0)[16..28], *b"desk.example");
    assert!(area == recording("desk.example"));
}

#[test]
fn every_capital_has_its_small_letter() {
    let capitals: String = ('A'..='Z').collect();
    let area = recording(&capitals);
    let kept = &name_slot(&area, 0)[16..42];
    assert_eq!(kept, b"abcdefghijklmnopqrstuvwxyz");
}

/// E4, E5 and E6 in four spellings.
#[test]
fn a_pin_holds_for_every_spelling() {
    for spelling in ["a.b", "A.b", "a.B", "A.B"] {
        let mut area = recording("A.b");
        let shown = Call::at(1600, spelling).with(showing(K));
        assert_eq!(shown.number(&mut area), 1);
        assert!(area == active());
        let mut contradicted = area.clone();
        assert_eq!(Call::at(2199, spelling).number(&mut contradicted), 2);
        assert!(records(&contradicted) == records(&area));
    }
}

#[test]
fn a_replaced_record_takes_small_letters() {
    let replaced = |spelling: &str| {
        let mut area = active();
        let call = Call::at(2200, spelling).with(showing(key(0x22)));
        assert_eq!(call.number(&mut area), 0);
        area
    };
    let area = replaced("A.B");
    assert_eq!(name_slot(&area, 0)[16..19], *b"a.b");
    assert_eq!(name_slot(&area, 1), [0; 272]);
    assert!(area == replaced("a.b"));
}

#[test]
fn deletion_of_every_spelling() {
    for spelling in ["a.b", "A.b", "a.B", "A.B"] {
        let mut area = active();
        assert_eq!(delete(&mut area, spelling.as_bytes()).number, 3);
        assert!(records(&area).iter().all(|byte| *byte == 0));
        assert_eq!(delete(&mut area, spelling.as_bytes()).number, 4);
    }
}

#[test]
fn inspection_of_every_spelling() {
    let area = active();
    let small = inspect(&area, b"a.b", 1700, false);
    assert_eq!((small.number, small.end), (6, 2200));
    for spelling in [b"A.b", b"a.B", b"A.B"] {
        assert_eq!(inspect(&area, spelling, 1700, false), small);
    }
    assert_eq!(inspect(&area, b"A.C", 1700, false).number, 4);
}

#[test]
fn another_spelling_needs_no_slot() {
    let mut area = empty_area();
    for number in 0..128 {
        let call = Call::at(1000, &format!("Host{number}")).with(showing(K));
        assert!(!call.judge(&mut area).no_room);
    }
    let mut known = area.clone();
    let call = Call::at(1001, "hOST127").with(showing(K));
    assert!(!call.judge(&mut known).no_room);
    let mut unknown = area.clone();
    let call = Call::at(1001, "HOST128").with(showing(K));
    assert!(call.judge(&mut unknown).no_room);
    assert!(records(&unknown) == records(&area));
}

#[test]
fn a_kept_table_has_small_letters_only() {
    let mut table = PinTable::empty();
    for (clock, name, number) in [(1000, "A.b", 0), (1600, "a.B", 1), (2199, "A.B", 1)] {
        let call = Call::at(clock, name).with(showing(K));
        let judgement = judge_kept(&mut table, &call.connection());
        assert_eq!(judgement.number, number);
    }
    let names: Vec<&[u8]> = table.name_records().map(|(name, _)| name).collect();
    assert_eq!(names, [b"a.b"]);
    assert!(table.pin(b"a.b").is_some());
    assert_eq!(table.pin(b"A.B"), table.pin(b"a.b"));
    assert_eq!(table.pin(b"A_B"), None);
}

/// One list of calls in small letters and in any spelling, side by side.
#[test]
fn a_mixed_list_gives_the_bytes_of_the_small_one() {
    let mut random = Random(21);
    let (mut small_area, mut mixed_area) = (empty_area(), empty_area());
    let mut deleted = 0;
    for call in any_night(20, 2400) {
        let mixed = respelled(&mut random, &call);
        let (small_name, mixed_name) = (&call.name, &mixed.name);
        if random.below(10) == 0 {
            let outcome = delete(&mut small_area, small_name);
            assert_eq!(delete(&mut mixed_area, mixed_name), outcome);
            deleted += usize::from(outcome.number == 3);
        } else {
            let judgement = call.judge(&mut small_area);
            assert_eq!(mixed.judge(&mut mixed_area), judgement);
        }
        assert!(mixed_area == small_area);
        let inspection = inspect(&small_area, small_name, call.clock, false);
        assert_eq!(
            inspect(&mixed_area, mixed_name, call.clock, false),
            inspection
        );
    }
    assert!(deleted > 0);
    assert!(parse(&mixed_area).unwrap().name_records().count() > 100);
}

#[track_caller]
fn is_malformed(name: &[u8]) {
    let area = active();
    let mut call = Call::at(1700, "").with(showing(K));
    call.name = name.to_vec();
    call.is_refused(&area, 12, 0);
    let mut after = area.clone();
    assert_eq!(delete(&mut after, name).number, 12);
    assert!(after == area);
    assert_eq!(inspect(&area, name, 1700, false).number, 12);
}

/// The bytes around the letters, and those that setting bit 5 would turn into a
/// dot, a hyphen or a digit, or that are capitals in Latin-1.
#[test]
fn no_byte_but_a_capital_is_folded() {
    for byte in [b'@', b'[', b'`', b'{', 0x0D, 0x0E, 0x10, 0x19, 0xC1, 0xDA] {
        is_malformed(&[byte]);
        is_malformed(&[b'A', byte, b'B']);
        is_malformed(&[b'a', byte, b'b']);
    }
}

#[test]
fn longest_name_in_capitals() {
    let labels = |last: usize| format!("{0}.{0}.{0}.{1}", "A".repeat(63), "B".repeat(last));
    let longest = labels(61);
    assert_eq!(longest.len(), 253);
    let area = recording(&longest);
    let small = longest.replace('A', "a").replace('B', "b");
    assert_eq!(name_slot(&area, 0)[16..269], *small.as_bytes());
    assert_eq!(labels(62).len(), 254);
    is_malformed(labels(62).as_bytes());
}

#[test]
fn longest_label_in_capitals() {
    let area = recording(&"A".repeat(63));
    assert_eq!(name_slot(&area, 0)[16..79], [b'a'; 63]);
    is_malformed("A".repeat(64).as_bytes());
}
