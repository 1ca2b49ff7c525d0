//! Every refusal of the judge of edition two through the safe crate: its number, its alert, a table that stays as it was; and
//! the order of the refusals.

mod common_two;

use common_two::{good, shown, tack, with_two_pins, Tack, HASH};
use tack::table::{ChecksTwo, ConnectionTwo, PinTable, Refusal, Refused};

/// The faults of a tack, in the order in which they are looked for; the last after all others of both tacks.
const FAULTS: [Refusal; 6] = [
    Refusal::KeyNotAPoint,
    Refusal::GenerationBelowOwnMinimum,
    Refusal::Expired,
    Refusal::TargetHashUnequal,
    Refusal::TackSignatureIncorrect,
    Refusal::GenerationRevoked,
];

/// The refusal, after a look at the table.
fn refused(pins: &mut PinTable, connection: &ConnectionTwo) -> Refused {
    let before = pins.clone();
    let refused = pins.judge_two(connection).expect_err("it is refused");
    assert!(*pins == before, "{refused}: the table changed");
    refused
}

/// A tack with those of the faults that stand in its bytes, for floor 3 and clock 1000.
fn with_faults(key: u8, faults: &[Refusal]) -> Tack {
    let has = |fault| faults.contains(&fault);
    let generation = if has(Refusal::GenerationRevoked) {
        2
    } else {
        3
    };
    Tack {
        key,
        min_generation: generation + u8::from(has(Refusal::GenerationBelowOwnMinimum)),
        generation,
        expiration: if has(Refusal::Expired) { 1000 } else { 1001 },
        target_hash: [HASH[0] ^ u8::from(has(Refusal::TargetHashUnequal)); 32],
    }
}

/// The refusal of two tacks with these keys and these faults.
fn of_faults(keys: [u8; 2], faults: [&[Refusal]; 2]) -> Refused {
    let tacks = [0, 1].map(|index| with_faults(keys[index], faults[index]));
    let extension = shown(&tacks, 0b11);
    let without = |fault| faults.map(|faults| !faults.contains(&fault));
    let checks = ChecksTwo::all_passed()
        .with_keys_are_points(without(Refusal::KeyNotAPoint))
        .with_signatures_correct(without(Refusal::TackSignatureIncorrect));
    refused(&mut with_two_pins(), &good(&extension).with_checks(checks))
}

#[test]
fn each_refusal_before_the_tacks() {
    let both = shown(&[tack(0x11), tack(0x22)], 0b11);
    let good = good(&both);
    let expected = [
        (12, 0, good.with_name(b"a_b")),
        (13, 0, good.with_clock(4_294_924_096)),
        (14, 0, good.with_clock(999)),
        (
            15,
            0,
            good.with_checks(good.checks.with_handshake_finished(false)),
        ),
        (16, 42, good.with_extension(&[])),
    ];
    for (number, alert, connection) in expected {
        let refused = refused(&mut with_two_pins(), &connection);
        assert_eq!((refused.number(), refused.alert()), (number, alert));
        assert_eq!(Refusal::try_from(number), Ok(refused.refusal()));
    }
}

#[test]
fn each_fault_of_either_tack() {
    for (fault, alert) in FAULTS.into_iter().zip([42, 42, 45, 42, 42, 44]) {
        for faults in [[&[fault][..], &[]], [&[], &[fault]]] {
            let refused = of_faults([0x11, 0x22], faults);
            assert_eq!((refused.refusal(), refused.alert()), (fault, alert));
        }
    }
}

#[test]
fn two_tacks_with_one_key() {
    for faults in [&[][..], &FAULTS] {
        let refused = of_faults([0x22, 0x22], [faults, faults]);
        assert_eq!(refused.refusal(), Refusal::OneKeyTwice);
        assert_eq!((refused.number(), refused.alert()), (24, 42));
    }
}

/// The faults of the first tack, then those of the second, and the revoked generation of either behind both.
#[test]
fn the_order_of_the_faults() {
    for from in 0..5 {
        let faults = [&FAULTS[from..], &FAULTS];
        assert_eq!(of_faults([0x11, 0x22], faults).refusal(), FAULTS[from]);
    }
    for from in 0..6 {
        let faults = [&FAULTS[5..], &FAULTS[from..]];
        assert_eq!(of_faults([0x11, 0x22], faults).refusal(), FAULTS[from]);
    }
}

#[test]
fn answers_about_an_absent_tack_are_ignored() {
    let first = shown(&[tack(0x11)], 0b1);
    let checks = ChecksTwo::default().with_handshake_finished(true);
    let of_first = checks
        .with_keys_are_points([true, false])
        .with_signatures_correct([true, false]);
    let connection = good(&first).with_checks(of_first);
    assert!(with_two_pins().judge_two(&connection).is_ok());
    let none = connection.without_extension().with_checks(checks);
    assert!(with_two_pins().judge_two(&none).is_ok());
}

#[test]
fn a_table_of_edition_one_is_the_other_edition() {
    let both = shown(&[tack(0x11), tack(0x22)], 0b11);
    // 27 comes before 12, whatever else is wrong.
    for connection in [good(&both), good(&both).with_name(b"")] {
        let refused = refused(&mut PinTable::new(), &connection);
        assert_eq!(refused.refusal(), Refusal::OtherEdition);
        assert_eq!((refused.number(), refused.alert()), (27, 0));
    }
}
