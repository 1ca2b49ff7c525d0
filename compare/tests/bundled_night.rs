//! The bundled night and its report, and what the other made nights promise.

use compare::area::{Area, KEY_SLOTS, NAME_SLOTS};
use compare::call::Connection;
use compare::make::{self, stories, Pins};
use compare::marks;
use std::collections::BTreeSet;

const NIGHT: &[u8] = include_bytes!("../../samples/night.bin");
const REPORT: &str = include_str!("../../samples/night.report");

/// The alerts of document 01's table.
fn alert(number: u8) -> u8 {
    match number {
        2 => 49,
        16 | 19 => 50,
        17 | 18 | 21 => 51,
        20 => 47,
        22 => 44,
        23 => 45,
        _ => 0,
    }
}

#[test]
fn the_stories_are_the_bundled_night() {
    assert!(make::bytes(stories::night()).unwrap() == NIGHT);
}

#[test]
fn the_second_program_gives_the_bundled_report() {
    assert_eq!(String::from_utf8(second::report(NIGHT)).unwrap(), REPORT);
}

#[test]
fn the_scenes_tell_the_bundled_report() {
    let told = stories::told();
    let mut lines: Vec<String> = told
        .iter()
        .enumerate()
        .map(|(index, told)| {
            let (number, no_room) = (told.number, u8::from(told.no_room));
            format!("{index} {number} {} {no_room}", alert(number))
        })
        .collect();
    lines.push(format!("total {}", told.len()));
    for (told, reported) in lines.iter().zip(REPORT.lines()) {
        assert_eq!(told, reported);
    }
    assert_eq!(lines.join("\n") + "\n", REPORT);
}

/// A night's calls give the yes for disabled tacks where they are judged one by one too, or the club would have no pin.
#[test]
fn the_calls_one_by_one_are_judged_as_told() {
    let mut area = Area::empty();
    for (index, told) in stories::told().iter().enumerate() {
        let judged = second::judge(&mut area.bytes, &told.call.for_second());
        let answer = (judged.number, judged.no_room);
        assert_eq!(answer, (told.number, told.no_room), "call {index}");
    }
}

#[test]
fn every_number_and_no_room_come() {
    let told = stories::told();
    assert!((200..=400).contains(&told.len()), "{} calls", told.len());
    let numbers: BTreeSet<u8> = told.iter().map(|told| told.number).collect();
    let judging: BTreeSet<u8> = (0..=2).chain(12..=23).collect();
    assert_eq!(numbers, judging);
    assert!(told.iter().any(|told| told.no_room));
}

/// How many names and keys the calls leave in an empty table.
fn slots_used(night: impl Iterator<Item = Connection>) -> (usize, usize) {
    let mut area = Area::empty();
    for call in night {
        second::judge(&mut area.bytes, &call.for_second());
    }
    (area.used_names().len(), area.used_keys().len())
}

#[test]
fn a_full_table_is_full_and_stays_full() {
    let sharing_marks = Pins {
        name: marks::name_of_20,
        key: marks::key,
    };
    for pins in [Pins::ALIKE, sharing_marks] {
        let full = (NAME_SLOTS, KEY_SLOTS);
        assert_eq!(slots_used(make::full(pins, 0, 1)), full);
        assert_eq!(slots_used(make::full(pins, 2_000, 1)), full);
    }
}

#[test]
fn calls_without_an_extension_leave_no_record() {
    assert_eq!(slots_used(make::without_extensions(500, 1)), (0, 0));
}

#[test]
fn few_names_are_four() {
    assert_eq!(slots_used(make::few(500, 1)), (4, 3));
}

#[test]
fn a_seed_repeats_a_night() {
    let night = |seed| make::bytes(make::random(700, seed)).unwrap();
    assert!(night(1) == night(1));
    assert!(night(1) != night(2));
}
