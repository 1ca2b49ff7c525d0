//! Recorded calls through the safe crate: the longest and the shortest, what cannot be recorded, and an output too small.

use tack::night::{self, LONGEST_CALL};
use tack::raw;
use tack::table::{Checks, Connection};

const HASH: [u8; 33] = [0x77; 33];

fn call<'a>(name: &'a [u8], extension: Option<&'a [u8]>) -> Connection<'a> {
    let checks = Checks::all_passed()
        .with_key_is_point(false)
        .with_breaks_correct(0xa5);
    let mut call = Connection::new(u64::from(u32::MAX), name, &HASH[..32], checks);
    call.extension = extension;
    call
}

#[test]
fn every_byte_of_a_short_call() {
    let mut night = vec![9];
    let recorded = night::record(&call(b"a", Some(&[8])), &mut night);
    assert_eq!(recorded, Ok(()));
    let fields: [&[u8]; 7] = [
        &[9],
        &[1, 0, 4, 0xff, 0xff, 0xff, 0xff],
        &[2, 0, 1, b'a'],
        &[3, 0, 2, 5, 0xa5],
        &[&[4, 0, 32][..], &HASH[..32]].concat(),
        &[5, 0, 1, 8],
        &[6, 0, 0],
    ];
    assert_eq!(night, fields.concat());
}

#[test]
fn the_shortest_and_the_longest() {
    let mut night = vec![];
    night::record(&call(&[], None), &mut night).expect("it is recordable");
    assert_eq!(night.len(), 53);
    let (name, extension) = ([0; 300], [0; 4096]);
    night::record(&call(&name, Some(&extension)), &mut night).expect("it is recordable");
    assert_eq!(night.len(), 53 + LONGEST_CALL);
}

#[test]
fn each_part_that_cannot_be_recorded() {
    let (name, extension) = ([0; 301], [0; 4097]);
    let good = call(&name[1..], Some(&extension[1..]));
    let refused = [
        good.with_clock(1 << 32),
        good.with_clock(u64::MAX),
        good.with_name(&name),
        good.with_spki_sha256(&HASH[..31]),
        good.with_spki_sha256(&HASH),
        good.with_spki_sha256(&[]),
        good.with_extension(&extension),
    ];
    let mut night = vec![1, 2, 3];
    for connection in refused {
        let refused = night::record(&connection, &mut night).expect_err("it is refused");
        assert_eq!(refused.number(), 25);
        assert_eq!(night, [1, 2, 3]);
    }
    assert_eq!(night::record(&good, &mut night), Ok(()));
}

/// The library's own numbers: 25 before 26, and the output as it was.
#[test]
fn no_space() {
    // No extension came, so its length does not count.
    let good = raw::Connection {
        clock: 0,
        name: b"a",
        extension_came: false,
        extension: &[0; 5000],
        spki_sha256: &HASH[..32],
        handshake_finished: false,
        key_is_point: false,
        signature_correct: false,
        breaks_correct: 0,
        learn_disabled: false,
    };
    let bad = raw::Connection {
        clock: 1 << 32,
        ..good
    };
    let mut out = [7; 55];
    for (number, connection) in [(26, good), (25, bad)] {
        let answer = raw::call_write(&connection, &mut out[..53]);
        assert_eq!(
            (answer.number, answer.alert, answer.written),
            (number, 0, 0)
        );
        assert_eq!(out, [7; 55]);
    }
    let answer = raw::call_write(&good, &mut out);
    assert_eq!((answer.number, answer.alert, answer.written), (9, 0, 54));
    assert_eq!(out[51..], [6, 0, 0, 7]);
}

/// A recording has no place for it: a night is played with the yes.
#[test]
fn the_choice_about_a_disabled_server_is_not_recorded() {
    let call = call(b"a", Some(&[8]));
    let with_yes = call.with_checks(call.checks.with_learn_disabled(true));
    let [mut with, mut without] = [vec![], vec![]];
    assert_eq!(night::record(&with_yes, &mut with), Ok(()));
    assert_eq!(night::record(&call, &mut without), Ok(()));
    assert_eq!(with, without);
}
