//! Reader and writers of the extension.

use second::extension::{breaks_span, read, signed_bytes, tack_span, write};
use second::{Extension, Reading, Span, Tack, Writing};

use crate::calls::{break_signature, extension, key, tack, HASH};

const EMPTY: Span = Span {
    start: 0,
    length: 0,
};
const MALFORMED: Reading = Reading {
    number: 16,
    alert: 50,
    activation: 0,
};

fn sample_tack() -> Vec<u8> {
    tack(key(0x11), 2, 5, 0x0102_0304)
}

fn sample_breaks(count: u8) -> Vec<u8> {
    (0..count).flat_map(|i| break_signature(key(i))).collect()
}

fn writing(number: u8, written: usize) -> Writing {
    Writing {
        number,
        alert: 0,
        written,
    }
}

#[track_caller]
fn is_malformed(bytes: &[u8]) {
    assert_eq!(read(bytes), MALFORMED);
    assert_eq!(tack_span(bytes), EMPTY);
    assert_eq!(breaks_span(bytes), EMPTY);
    assert_eq!(Extension::parse(bytes), None);
}

#[test]
fn lengths() {
    assert_eq!(extension(&sample_tack(), &[], 0).len(), 170);
    assert_eq!(extension(&[], &sample_breaks(1), 0).len(), 132);
    assert_eq!(extension(&sample_tack(), &sample_breaks(8), 0).len(), 1194);
}

#[test]
fn every_shape_goes_round() {
    for tack in [vec![], sample_tack()] {
        for count in 0..=8 {
            for activation in 0..=1 {
                goes_round(&tack, &sample_breaks(count), activation);
            }
        }
    }
}

fn goes_round(tack: &[u8], breaks: &[u8], activation: u8) {
    let length = 4 + tack.len() + breaks.len();
    let mut out = vec![0xEE; length + 3];
    let answer = write(tack, breaks, activation, &mut out);
    assert_eq!(answer, writing(9, length));
    assert_eq!(out[length..], [0xEE; 3]);

    let bytes = &out[..length];
    assert_eq!(bytes, extension(tack, breaks, activation));
    let reading = Reading {
        number: 9,
        alert: 0,
        activation,
    };
    assert_eq!(read(bytes), reading);
    assert_eq!(part(bytes, tack_span(bytes)), tack);
    assert_eq!(part(bytes, breaks_span(bytes)), breaks);
    let parsed = Extension::parse(bytes).expect("well-formed");
    assert_eq!(parsed.tack, Tack::parse(tack));
    assert_eq!(parsed.tack.is_some(), !tack.is_empty());
    assert_eq!(parsed.breaks.len(), breaks.len() / 128);
    assert_eq!(parsed.activation, activation == 1);
}

fn part(bytes: &[u8], span: Span) -> &[u8] {
    &bytes[span.start..span.start + span.length]
}

#[test]
fn places_of_the_parts() {
    let both = extension(&sample_tack(), &sample_breaks(2), 1);
    let span = |start, length| Span { start, length };
    assert_eq!(tack_span(&both), span(1, 166));
    assert_eq!(breaks_span(&both), span(169, 256));
    let breaks_alone = extension(&[], &sample_breaks(1), 1);
    assert_eq!(tack_span(&breaks_alone), EMPTY);
    assert_eq!(breaks_span(&breaks_alone), span(3, 128));
    assert_eq!(breaks_span(&extension(&sample_tack(), &[], 0)), EMPTY);
}

#[test]
fn fields_of_the_parsed_form() {
    let bytes = extension(&sample_tack(), &sample_breaks(2), 1);
    let parsed = Extension::parse(&bytes).expect("well-formed");
    let tack = parsed.tack.expect("a tack");
    assert_eq!(tack.public_key, key(0x11));
    assert_eq!((tack.min_generation, tack.generation), (2, 5));
    assert_eq!(tack.expiration.value(), 0x0102_0304);
    assert_eq!(tack.target_hash, HASH);
    assert_eq!(tack.signature, [0x55; 64]);
    assert_eq!(parsed.breaks[1].public_key, key(1));
    assert_eq!(parsed.breaks[1].signature, [0x66; 64]);
}

#[test]
fn a_cut_or_a_longer_extension_is_malformed() {
    let bytes = extension(&sample_tack(), &sample_breaks(1), 1);
    for length in 0..bytes.len() {
        is_malformed(&bytes[..length]);
    }
    let longer = [bytes.as_slice(), &[0]].concat();
    is_malformed(&longer);
}

#[test]
fn wrong_lengths_and_activation_are_malformed() {
    for length in (1..=165).chain(167..=255) {
        is_malformed(&extension(&vec![0; length], &[], 0));
    }
    for length in [1, 64, 127, 129, 255, 1023, 1025, 1152, 65_535] {
        is_malformed(&extension(&[], &vec![0; length], 0));
    }
    for activation in 2..=255 {
        is_malformed(&extension(&[], &[], activation));
    }
    // A two-byte length before the tack belongs to the later draft.
    let two_byte_length = [&[0, 166], sample_tack().as_slice(), &[0, 0, 0]].concat();
    is_malformed(&two_byte_length);
}

#[test]
fn writer_refuses_bad_parts_before_space() {
    let long_breaks = vec![0; 9 * 128];
    let bad: [(&[u8], &[u8], u8); 6] = [
        (&[0; 165], &[], 0),
        (&[0; 167], &[], 0),
        (&[], &[0; 127], 0),
        (&[], &long_breaks, 0),
        (&[], &[], 2),
        (&[0; 166], &[0; 128], 255),
    ];
    for (tack, breaks, activation) in bad {
        for space in [0, 2000] {
            let mut out = vec![0xEE; space];
            assert_eq!(write(tack, breaks, activation, &mut out), writing(25, 0));
            assert!(out.iter().all(|byte| *byte == 0xEE));
        }
    }
}

#[test]
fn writer_refuses_too_small_an_output() {
    let tack = sample_tack();
    for space in [0, 1, 169] {
        let mut out = vec![0xEE; space];
        assert_eq!(write(&tack, &[], 1, &mut out), writing(26, 0));
        assert!(out.iter().all(|byte| *byte == 0xEE));
    }
    assert_eq!(write(&tack, &[], 1, &mut [0; 170]), writing(9, 170));
    assert_eq!(write(&[], &[], 1, &mut [0; 3]), writing(26, 0));
    assert_eq!(write(&[], &[], 1, &mut [0; 4]), writing(9, 4));
}

#[test]
fn bytes_to_be_signed() {
    let tack = sample_tack();
    let mut out = [0xEE; 112];
    assert_eq!(signed_bytes(&tack, &mut out), writing(9, 110));
    assert_eq!(&out[..8], b"tack_sig");
    assert_eq!(out[8..110], tack[..102]);
    assert_eq!(out[110..], [0xEE; 2]);

    let mut small = [0xEE; 109];
    assert_eq!(signed_bytes(&tack, &mut small), writing(26, 0));
    assert_eq!(signed_bytes(&tack[..165], &mut small), writing(25, 0));
    assert_eq!(signed_bytes(&[], &mut small), writing(25, 0));
    assert_eq!(small, [0xEE; 109]);
}
