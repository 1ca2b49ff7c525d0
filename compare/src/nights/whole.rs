//! Nights of whole calls.

use crate::area::Key;
use crate::call::Connection;
use crate::make::{self, stories, Pins};
use crate::random::Random;
use crate::record::{LONGEST_CALL, LONGEST_EXTENSION, LONGEST_NAME};
use crate::spelling;
use crate::wire::{self, Tack};

/// Makers give recordable calls only.
fn bytes(night: impl IntoIterator<Item = Connection>) -> Vec<u8> {
    make::bytes(night).expect("a made night is recordable")
}

/// The papers' examples: one key, first seen at 1,000 and again at 1,600.
pub fn e4_and_e5(_case: usize, _random: &mut Random) -> Vec<u8> {
    let at = |clock| Connection::at(clock, b"a.b").with(make::showing([0x11; 64]));
    bytes([at(1_000), at(1_600)])
}

/// A key with floor 3 is shown by an expired tack with min_generation 5, which revokes generation 4; the clock may still be
/// that of the first call. The key record stays, floor and all, although the next expired tack comes with a lower
/// min_generation and a break signature of its key.
pub fn expired_tack_revokes(_case: usize, _random: &mut Random) -> Vec<u8> {
    let key = [0x11; 64];
    let call = |clock, min_generation, generation, expiration, breaks: &[Key]| {
        let tack = Tack {
            key,
            min_generation,
            generation,
            expiration,
        };
        Connection::at(clock, b"a.b").with(wire::extension(Some(&tack), breaks, 1))
    };
    bytes([
        call(1_000, 3, 3, u32::MAX, &[]),
        call(1_001, 5, 5, 1_000, &[]),
        call(1_001, 3, 4, u32::MAX, &[]),
        call(1_000, 3, 5, u32::MAX, &[]),
        call(1_600, 3, 5, u32::MAX, &[]),
        call(1_601, 3, 5, 1_600, &[key]),
        call(1_601, 3, 4, u32::MAX, &[]),
        call(1_601, 3, 5, u32::MAX, &[]),
    ])
}

pub fn empty(_case: usize, _random: &mut Random) -> Vec<u8> {
    vec![]
}

pub fn bundled(_case: usize, _random: &mut Random) -> Vec<u8> {
    bytes(stories::night())
}

/// Up to 400 calls; one case in four is so long that a table is filled.
pub fn random(case: usize, random: &mut Random) -> Vec<u8> {
    let calls = match case % 4 {
        0 => 1_000,
        _ => 1 + random.up_to(399),
    };
    bytes(make::random(u64::from(calls), random.seed()))
}

pub fn full(_case: usize, random: &mut Random) -> Vec<u8> {
    bytes(make::full(Pins::ALIKE, 300, random.seed()))
}

/// The bundled night, one on a full table, and random ones; only a name without letters has no capital.
pub fn every_name_with_capitals(case: usize, random: &mut Random) -> Vec<u8> {
    let mut night: Vec<Connection> = match case % 6 {
        0 => stories::night().collect(),
        1 => make::full(Pins::ALIKE, 300, random.seed()).collect(),
        _ => make::random(400, random.seed()).collect(),
    };
    for call in &mut night {
        call.name = spelling::with_capitals(spelling::small(&call.name), random);
    }
    bytes(night)
}

/// Calls of few names, of all sorts, and on a full table.
pub fn long(case: usize, random: &mut Random) -> Vec<u8> {
    let night = match case % 3 {
        0 => bytes(make::few(1_000, random.seed())),
        1 => bytes(make::random(1_500, random.seed())),
        _ => bytes(make::full(Pins::ALIKE, 800, random.seed())),
    };
    assert!(night.len() > 200_000, "a long night of {}", night.len());
    night
}

/// Up to twenty bytes shorter than the longest.
pub fn long_calls(_case: usize, random: &mut Random) -> Vec<u8> {
    let mut near = |longest: usize| longest - random.below(11);
    let lengths = (0..60).map(|_| (near(LONGEST_NAME), near(LONGEST_EXTENSION)));
    calls_of(lengths.collect())
}

/// As long as a call can be.
pub fn longest_calls(_case: usize, _random: &mut Random) -> Vec<u8> {
    let night = calls_of(vec![(LONGEST_NAME, LONGEST_EXTENSION); 20]);
    assert_eq!(night.len(), 20 * LONGEST_CALL);
    night
}

/// Calls with names and extensions of these lengths.
fn calls_of(lengths: Vec<(usize, usize)>) -> Vec<u8> {
    bytes(
        lengths
            .into_iter()
            .map(|(name, extension)| Connection::at(7, &vec![b'a'; name]).with(vec![0; extension])),
    )
}

/// Calls without a name and an extension.
pub fn shortest_calls(_case: usize, _random: &mut Random) -> Vec<u8> {
    bytes((0..4_000).map(|clock| Connection::at(clock, b"")))
}

/// How long the nights of a buffer's length are: a byte less, as long, or a byte more.
pub const BUFFERS: [usize; 6] = [512, 4_096, 8_192, 16_384, 65_536, 131_072];

fn buffer(case: usize) -> usize {
    BUFFERS[case / 3 % BUFFERS.len()] - 1 + case % 3
}

/// Whole calls that are together as long as a buffer that a program may have.
pub fn of_buffer(case: usize, random: &mut Random) -> Vec<u8> {
    of_length(buffer(case), random)
}

/// The same length, but the last call lacks its last byte.
pub fn of_buffer_cut(case: usize, random: &mut Random) -> Vec<u8> {
    let mut night = of_length(buffer(case) + 1, random);
    night.pop();
    night
}

/// Calls without extensions have 53 bytes and their name's. The last name makes the night as long as it is to be.
fn of_length(length: usize, random: &mut Random) -> Vec<u8> {
    let mut calls = vec![];
    let mut left = length;
    while left > 53 + LONGEST_NAME {
        let name = 1 + random.below(100);
        calls.push(Connection::at(7, &vec![b'a'; name]));
        left -= 53 + name;
    }
    calls.push(Connection::at(7, &vec![b'a'; left - 53]));
    let night = bytes(calls);
    assert_eq!(night.len(), length);
    night
}

#[test]
fn no_name_is_left_in_small_letters() {
    let mut random = Random::new(1);
    for case in 0..6 {
        let night = every_name_with_capitals(case, &mut random);
        let mut rest = &night[..];
        while let Some((call, behind)) = second::read_call(rest) {
            let has_letter = call.name.iter().any(u8::is_ascii_alphabetic);
            assert_eq!(spelling::has_capital(call.name), has_letter);
            rest = behind;
        }
        assert!(rest.is_empty() && night != crate::record::in_small_letters(&night));
    }
}
