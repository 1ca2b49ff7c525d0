//! Servers that show their tack disabled: by the default no pin is made, and with the yes one is.

use tack::extension;
use tack::table::{Checks, Connection, PinTable, Verdict};

const HASH: [u8; 32] = [0x77; 32];

/// A tack of the key that is one byte 64 times, with this activation.
fn shown(key: u8, enabled: bool) -> [u8; 170] {
    let tack = [&[key; 64][..], &[3, 3], &[0xff; 4], &HASH, &[0x55; 64]].concat();
    let mut bytes = [0; 170];
    assert_eq!(extension::write(&tack, &[], enabled, &mut bytes), Ok(170));
    bytes
}

fn connection(name: &[u8], learn_disabled: bool) -> Connection<'_> {
    let checks = Checks::all_passed().with_learn_disabled(learn_disabled);
    Connection::new(1000, name, &HASH, checks)
}

/// The verdict, and whether there was no room.
fn judge(pins: &mut PinTable, connection: &Connection) -> (Verdict, bool) {
    let judgement = pins.judge(connection).expect("no refusal applies");
    (judgement.verdict, judgement.no_room)
}

/// When the record of `a.b` was made, if there is one.
fn initial(pins: &PinTable) -> Option<u32> {
    let record = pins.inspect(b"a.b", 1000).expect("a good name and clock");
    record.map(|record| record.initial)
}

#[test]
fn the_default_is_no() {
    assert!(!Checks::default().learn_disabled);
    assert!(!Checks::all_passed().learn_disabled);
}

#[test]
fn a_disabled_server_gets_a_pin_with_the_yes_alone() {
    for (enabled, learn_disabled) in [(false, false), (false, true), (true, false), (true, true)] {
        let mut pins = PinTable::new();
        let shown = shown(0x11, enabled);
        let connection = connection(b"a.b", learn_disabled).with_extension(&shown);
        assert_eq!(judge(&mut pins, &connection), (Verdict::Unpinned, false));
        let made = enabled || learn_disabled;
        assert_eq!(initial(&pins), made.then_some(1000));
    }
}

#[test]
fn an_inactive_pin_of_another_key_is_replaced_with_the_yes_alone() {
    let (old, new) = (shown(0x11, true), shown(0x22, false));
    for (learn_disabled, stands) in [(false, 1000), (true, 1600)] {
        let mut pins = PinTable::new();
        let first = connection(b"a.b", learn_disabled);
        judge(&mut pins, &first.with_extension(&old));
        judge(&mut pins, &first.with_extension(&new).with_clock(1600));
        assert_eq!(initial(&pins), Some(stands));
    }
}

#[test]
fn no_room_is_said_with_the_yes_alone() {
    let mut pins = PinTable::new();
    for key in 0..64 {
        let name = format!("name-{key}");
        let shown = shown(key, true);
        let connection = connection(name.as_bytes(), false).with_extension(&shown);
        assert_eq!(judge(&mut pins, &connection), (Verdict::Unpinned, false));
    }
    let another = shown(64, false);
    for no_room in [false, true] {
        let before = pins.clone();
        let asked = connection(b"a.b", no_room).with_extension(&another);
        assert_eq!(judge(&mut pins, &asked), (Verdict::Unpinned, no_room));
        assert!(pins == before);
    }
}

#[test]
fn the_yes_activates_nothing() {
    let (disabled, enabled) = (shown(0x11, false), shown(0x11, true));
    let mut pins = PinTable::new();
    let scanner = connection(b"a.b", true).with_extension(&disabled);
    judge(&mut pins, &scanner);
    let judged = judge(&mut pins, &scanner.with_clock(1600));
    assert_eq!(judged, (Verdict::Unpinned, false));
    // The server enables its tack: the period counts from the first sight.
    let gateway = connection(b"a.b", false).with_extension(&enabled);
    let judged = judge(&mut pins, &gateway.with_clock(1700));
    assert_eq!(judged, (Verdict::Confirmed, false));
    let record = pins.inspect(b"a.b", 1700).expect("a good name and clock");
    assert_eq!(record.expect("it is recorded").end, Some(2400));
}
