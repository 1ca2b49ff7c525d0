//! Reader and writer of the extension of edition two.

use second::extension_two::{parse, read, tack_span, write};
use second::{Reading, Span, Tack, Writing};

use crate::calls::{key, tack};
use crate::calls_two::{extension_two, showing_two};

const EMPTY: Span = Span {
    start: 0,
    length: 0,
};
const MALFORMED: Reading = Reading {
    number: 16,
    alert: 42,
    activation: 0,
};

fn writing(number: u8, written: usize) -> Writing {
    Writing {
        number,
        alert: 0,
        written,
    }
}

fn tacks(count: u8) -> Vec<Vec<u8>> {
    let each = |number| tack(key(number), number, 5, 0x0102_0304);
    (0..count).map(each).collect()
}

/// The part of the tacks, by its length alone, in an extension.
fn of_length(length: usize, flags: u8) -> Vec<u8> {
    extension_two(&[vec![7; length]], flags)
}

#[track_caller]
fn is_malformed(bytes: &[u8]) {
    assert_eq!(read(bytes), MALFORMED);
    assert_eq!(tack_span(bytes, false), EMPTY);
    assert_eq!(tack_span(bytes, true), EMPTY);
    assert_eq!(parse(bytes), None);
}

#[track_caller]
fn is_read(bytes: &[u8], flags: u8) {
    let reading = Reading {
        number: 9,
        alert: 0,
        activation: flags,
    };
    assert_eq!(read(bytes), reading);
}

#[test]
fn lengths() {
    assert_eq!(showing_two(&[key(1)], 0).len(), 169);
    assert_eq!(showing_two(&[key(1), key(2)], 0).len(), 335);
}

#[test]
fn every_shape_goes_round() {
    for (count, most_flags) in [(1, 1), (2, 3)] {
        for flags in 0..=most_flags {
            let part = tacks(count).concat();
            let mut out = [0xEE; 400];
            let length = part.len() + 3;
            assert_eq!(write(&part, flags, &mut out), writing(9, length));
            assert!(out[length..].iter().all(|byte| *byte == 0xEE));
            let bytes = &out[..length];
            assert_eq!(bytes, extension_two(&tacks(count), flags));
            is_read(bytes, flags);
        }
    }
}

#[test]
fn places_of_the_tacks() {
    let span = |start| Span { start, length: 166 };
    let one = extension_two(&tacks(1), 1);
    assert_eq!(tack_span(&one, false), span(2));
    assert_eq!(tack_span(&one, true), EMPTY);
    let two = extension_two(&tacks(2), 0);
    assert_eq!(tack_span(&two, false), span(2));
    assert_eq!(tack_span(&two, true), span(168));
    assert_eq!(two[168..334], tacks(2)[1]);
}

#[test]
fn tacks_of_the_parsed_form() {
    for flags in 0..=3 {
        let shown = parse(&extension_two(&tacks(2), flags)).expect("well-formed");
        let enabled: Vec<bool> = shown.iter().map(|shown| shown.enabled).collect();
        assert_eq!(enabled, [flags & 1 != 0, flags & 2 != 0]);
        for (shown, bytes) in shown.iter().zip(tacks(2)) {
            assert_eq!(Some(&shown.tack), Tack::parse(&bytes).as_ref());
        }
    }
    let shown = parse(&extension_two(&tacks(1), 1)).expect("well-formed");
    assert_eq!(shown.len(), 1);
    assert!(shown[0].enabled);
}

#[test]
fn only_166_and_332_are_lengths() {
    for length in [0, 1, 165, 167, 331, 333, 498, 0x1A6, 65_535] {
        for flags in 0..=4 {
            is_malformed(&of_length(length, flags));
        }
    }
    for length in (0..=700).filter(|length| ![166, 332].contains(length)) {
        is_malformed(&of_length(length, 0));
    }
    is_read(&of_length(166, 0), 0);
    is_read(&of_length(332, 0), 0);
}

#[test]
fn flags_of_absent_tacks_are_malformed() {
    for flags in 0..=255 {
        let (one, two) = (of_length(166, flags), of_length(332, flags));
        match flags {
            0..=1 => is_read(&one, flags),
            _ => is_malformed(&one),
        }
        match flags {
            0..=3 => is_read(&two, flags),
            _ => is_malformed(&two),
        }
    }
}

#[test]
fn a_cut_or_a_longer_extension_is_malformed() {
    for count in 1..=2 {
        let bytes = extension_two(&tacks(count), 1);
        for length in 0..bytes.len() {
            is_malformed(&bytes[..length]);
        }
        for trailing in [&[0][..], &[1], &[0, 0], &[0; 166]] {
            is_malformed(&[&bytes, trailing].concat());
        }
    }
}

/// A length that says one tack before two, and one that says two before one.
#[test]
fn the_length_must_be_that_of_the_tacks() {
    let mut two = of_length(332, 0);
    two[..2].copy_from_slice(&166_u16.to_be_bytes());
    is_malformed(&two);
    let mut one = of_length(166, 0);
    one[..2].copy_from_slice(&332_u16.to_be_bytes());
    is_malformed(&one);
    // The one-byte length and the break signatures belong to edition one.
    is_malformed(&crate::calls::showing(key(1)));
    is_malformed(&[0, 0, 0, 0]);
}

/// The reader does not look into the tacks; 24 is the judge's.
#[test]
fn two_tacks_with_one_key_can_be_read_and_written() {
    let bytes = showing_two(&[key(1), key(1)], 3);
    is_read(&bytes, 3);
    let mut out = [0; 335];
    assert_eq!(write(&bytes[2..334], 3, &mut out), writing(9, 335));
    assert_eq!(out[..], bytes);
}

#[test]
fn writer_refuses_bad_parts_before_space() {
    let lengths = [0, 165, 167, 331, 333, 498, 65_536, 65_536 + 166];
    let bad_lengths = lengths.map(|length| (length, 0));
    let bad_flags = [(166, 2), (166, 3), (166, 4), (332, 4), (332, 255)];
    for (length, flags) in bad_lengths.into_iter().chain(bad_flags) {
        for space in [0, 2000] {
            let mut out = vec![0xEE; space];
            assert_eq!(write(&vec![0; length], flags, &mut out), writing(25, 0));
            assert!(out.iter().all(|byte| *byte == 0xEE));
        }
    }
}

#[test]
fn writer_refuses_too_small_an_output() {
    for (count, needed) in [(1, 169), (2, 335)] {
        let part = tacks(count).concat();
        for space in [0, 2, needed - 1] {
            let mut out = vec![0xEE; space];
            assert_eq!(write(&part, 1, &mut out), writing(26, 0));
            assert!(out.iter().all(|byte| *byte == 0xEE));
        }
        let mut out = vec![0xEE; needed];
        assert_eq!(write(&part, 1, &mut out), writing(9, needed));
    }
}
