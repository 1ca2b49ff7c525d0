//! A recorded night: 20,000 calls on a full table, by the proved library and by the second program.

use crate::soundness;
use crate::tables::{self, ACTIVATED, FULL};
use crate::timing::{measure, Timing};
use tack::raw;

const CALLS: usize = 20_000;

/// A recorded call; the extension is empty where none came.
struct Recorded {
    clock: u64,
    name: Vec<u8>,
    extension: Vec<u8>,
}

/// Of sixteen calls, twelve confirm their pins and two contradict them, one without an extension; one is of a name that the
/// table has no room for, and one is malformed. The table stays full.
fn record() -> Vec<Recorded> {
    let call = |index: usize| {
        // Names in no order that a cache would know.
        let number = index * 73 % 128;
        let (number, key) = match index % 16 {
            13 => (number, number + 1),
            14 => (500 + index % 400, number),
            _ => (number, number),
        };
        let mut extension = tables::showing(&tables::key(key % FULL.keys));
        match index % 16 {
            12 => extension.clear(),
            15 => extension[169] = 2,
            _ => {}
        }
        Recorded {
            clock: ACTIVATED + index as u64 / 10,
            name: tables::name(number, FULL.name_length),
            extension,
        }
    };
    (0..CALLS).map(call).collect()
}

/// Number, alert and no room of each call, and the table afterwards.
type Outcome = (Vec<(u8, u8, bool)>, Vec<u8>);

fn proved(table: &[u8], night: &[Recorded]) -> Outcome {
    let mut table = table.to_vec();
    let answer = |call: &Recorded| {
        let connection = tables::connection(call.clock, &call.name, &call.extension);
        let judged = raw::judge(&mut table, &connection);
        (judged.number, judged.alert, judged.no_room)
    };
    (night.iter().map(answer).collect(), table)
}

fn second(table: &[u8], night: &[Recorded]) -> Outcome {
    let mut table = table.to_vec();
    let answer = |call: &Recorded| {
        let connection = second::Connection {
            clock: call.clock,
            name: &call.name,
            extension: (!call.extension.is_empty()).then_some(&call.extension[..]),
            spki_sha256: &tables::HASH,
            handshake_finished: true,
            key_is_point: true,
            signature_correct: true,
            breaks_correct: 0,
            learn_disabled: true,
        };
        let judged = second::judge(&mut table, &connection);
        (judged.number, judged.alert, judged.no_room)
    };
    (night.iter().map(answer).collect(), table)
}

pub fn report(repeats: usize) {
    let (table, night) = (tables::table(FULL), record());
    let expected = second(&table, &night);
    let mut by_proved = || assert!(proved(&table, &night) == expected);
    let mut by_second = || assert!(second(&table, &night) == expected);
    let [proved, second] = measure(repeats, CALLS, [&mut by_proved, &mut by_second]);
    let [_, proved_check, second_check] = soundness::timings(&table, FULL.name_length, repeats);

    println!("20,000 recorded calls on a full table: median of {repeats} repeats");
    println!(
        "{:<7} {:>12} {:>24}  {:<26} {:>22}",
        "", "calls/second", "(least to most)", "microseconds a call", "share of the check"
    );
    line("proved", &proved, &proved_check);
    line("second", &second, &second_check);
    let ratio = proved.median() / second.median();
    println!(
        "a call of the proved library takes {ratio:.2} times as long as one of the second program"
    );
}

fn line(program: &str, call: &Timing, check: &Timing) {
    let (median, spread) = call.per_second();
    let share = 100.0 * check.median() / call.median();
    println!("{program:<7} {median:>12.0} {spread:>24}  {call:<26} {share:>20.0} %");
}
