//! Every refusal of the judge of edition one through the safe crate: its number, its alert, and a table that stays as it was, but
//! for the floor that an expired tack raises.

mod common;

use common::{good, shown, HASH};
use tack::table::{Checks, Edition, PinTable, Refusal};

#[test]
fn each_refusal_of_the_judge() {
    let (third, inconsistent) = (shown(3, 3, u32::MAX), shown(3, 2, u32::MAX));
    let (second, expiring) = (shown(2, 2, u32::MAX), shown(3, 3, 1000));
    let good = good(&third);
    let mut pins = PinTable::new();
    pins.judge(&good).expect("a verdict");
    let before = pins.clone();

    let checks = good.checks;
    #[rustfmt::skip]
    let refused = [
        (12, 0, good.with_name(b"a_b")),
        (13, 0, good.with_clock(4_294_924_096)),
        (14, 0, good.with_clock(999)),
        (15, 0, good.with_checks(checks.with_handshake_finished(false))),
        (16, 50, good.with_extension(&[])),
        (17, 51, good.with_checks(checks.with_breaks_correct(0xfe))),
        (18, 51, good.with_checks(checks.with_key_is_point(false))),
        (19, 50, good.with_extension(&inconsistent)),
        (20, 47, good.with_spki_sha256(&HASH[1..])),
        (21, 51, good.with_checks(checks.with_signature_correct(false))),
        (22, 44, good.with_extension(&second)),
        (23, 45, good.with_clock(1001).with_extension(&expiring)),
    ];
    for (number, alert, connection) in refused {
        let refused = pins.judge(&connection).expect_err("it is refused");
        assert_eq!((refused.number(), refused.alert()), (number, alert));
        assert_eq!(Refusal::try_from(number), Ok(refused.refusal()));
        assert!(pins == before, "{refused}: the table changed");
    }
}

/// Byte 1 of the first key slot.
const FLOOR_AT: usize = 9;

#[test]
fn an_expired_tack_still_revokes() {
    let (third, fourth) = (shown(3, 3, u32::MAX), shown(4, 4, u32::MAX));
    let (higher, lower) = (shown(5, 5, 1000), shown(2, 5, 1000));
    let good = good(&third);
    let mut pins = PinTable::new();
    pins.judge(&good).expect("a verdict");
    let mut expected = *pins.as_bytes();
    assert_eq!(expected[FLOOR_AT], 3);

    for (expired, floor) in [(&lower, 3), (&higher, 5), (&lower, 5), (&higher, 5)] {
        let refused = pins.judge(&good.with_clock(1001).with_extension(expired));
        let refused = refused.expect_err("it is refused");
        assert_eq!((refused.number(), refused.alert()), (23, 45));
        expected[FLOOR_AT] = floor;
        assert!(*pins.as_bytes() == expected, "more than the floor changed");
    }
    // Latest is still 1000.
    let refused = pins.judge(&good.with_extension(&fourth));
    let refused = refused.expect_err("it is refused");
    assert_eq!(refused.refusal(), Refusal::GenerationRevoked);
}

#[test]
fn without_a_check_all_is_refused() {
    let third = shown(3, 3, u32::MAX);
    let mut pins = PinTable::new();
    for connection in [good(&third), good(&third).without_extension()] {
        let refused = pins.judge(&connection.with_checks(Checks::default()));
        let refused = refused.expect_err("it is refused");
        assert_eq!(refused.refusal(), Refusal::HandshakeNotFinished);
    }
    let finished = Checks::default().with_handshake_finished(true);
    let refused = pins.judge(&good(&third).with_checks(finished));
    let refused = refused.expect_err("it is refused");
    assert_eq!(refused.refusal(), Refusal::BreakSignatureIncorrect);
    assert!(pins == PinTable::new());
}

#[test]
fn a_kept_table_goes_on() {
    let third = shown(3, 3, u32::MAX);
    let mut pins = PinTable::new();
    pins.judge(&good(&third)).expect("a verdict");
    let kept = pins.as_bytes().to_vec();
    let again = PinTable::from_bytes(&kept).expect("a sound table");
    assert!(again == pins);
    let refused = again.inspect(b"a.b", 4_294_924_096);
    let refused = refused.expect_err("it is refused");
    assert_eq!(refused.refusal(), Refusal::ClockAboveLimit);
    pins.start(Edition::One);
    assert!(pins == PinTable::new());
}

#[test]
fn a_table_of_edition_two_is_the_other_edition() {
    let third = shown(3, 3, u32::MAX);
    let mut pins = PinTable::of_edition(Edition::Two);
    let before = pins.clone();
    // 27 comes before 12, whatever else is wrong.
    for connection in [good(&third), good(&third).with_name(b"")] {
        let refused = pins.judge(&connection).expect_err("it is refused");
        assert_eq!(refused.refusal(), Refusal::OtherEdition);
        assert_eq!((refused.number(), refused.alert()), (27, 0));
        assert!(pins == before);
    }
}
