//! Edition two: calls on full tables of 64 names with two pins each, by the proved library and by the second program.

use crate::tables::{self, tack, ACTIVATED, FULL, HASH};
use crate::timing::measure;
use compare::marks;
use tack::raw;
use tack::table::AREA_LENGTH;

const NAMES: usize = FULL.names / 2;
/// When the pins were made.
const MADE: u64 = 1_000;

/// What a table holds, and how many calls are made on it: fewer where a call takes long.
struct Kind {
    holds: &'static str,
    calls: usize,
    name: fn(usize) -> Vec<u8>,
    key: fn(usize) -> [u8; 64],
    /// So many keys there are; name i has the keys i and i + 1 of them.
    keys: usize,
}

/// The last is as an adversary would choose it who knows the library's marks: all names are compared with each other twice, once
/// with those of their key and once with all.
const KINDS: [Kind; 2] = [
    Kind {
        holds: "names of 20 bytes that end alike, 64 keys that are equal in their first 63 bytes",
        calls: 20_000,
        name: |number| tables::name(number, FULL.name_length),
        key: tables::key,
        keys: FULL.keys,
    },
    Kind {
        holds: "names of 253 bytes that share a mark and differ in the last four, two keys",
        calls: 2_000,
        name: marks::name_of_253,
        key: marks::key,
        keys: 2,
    },
];

/// A call; the extension is empty where none came.
struct Call {
    clock: u64,
    name: Vec<u8>,
    extension: Vec<u8>,
}

impl Kind {
    fn tack(&self, number: usize) -> Vec<u8> {
        tack(&(self.key)(number % self.keys))
    }

    /// Both tacks of a name, enabled.
    fn both(&self, number: usize) -> Vec<u8> {
        let [first, second] = [number, number + 1].map(|index| self.tack(index));
        [&332u16.to_be_bytes(), &first[..], &second, &[3]].concat()
    }

    /// Of sixteen calls, twelve confirm both pins of their names and two contradict them, one without an extension and one with
    /// the first tack alone; one is of a name that the table has no room for, and one is malformed. The table stays full.
    fn calls(&self) -> Vec<Call> {
        let call = |index: usize| {
            let number = index * 73 % NAMES;
            let mut extension = self.both(number);
            match index % 16 {
                12 => extension.clear(),
                13 => extension = [&166u16.to_be_bytes(), &self.tack(number)[..], &[1]].concat(),
                15 => extension[334] = 4,
                _ => {}
            }
            let number = if index % 16 == 14 { 500 } else { number };
            Call {
                clock: ACTIVATED + index as u64 / 10,
                name: (self.name)(number),
                extension,
            }
        };
        (0..self.calls).map(call).collect()
    }

    /// Both pins of every name are active.
    fn table(&self) -> Vec<u8> {
        let mut table = vec![0; AREA_LENGTH];
        raw::start(&mut table, true);
        for clock in [MADE, ACTIVATED] {
            for number in 0..NAMES {
                let call = Call {
                    clock,
                    name: (self.name)(number),
                    extension: self.both(number),
                };
                assert_eq!(proved(&mut table, &call), (0, 0, false));
            }
        }
        table
    }

    fn report(&self, repeats: usize) {
        let (table, calls) = (self.table(), self.calls());
        let expected = judged(&table, &calls, second);
        let mut by_proved = || assert!(judged(&table, &calls, proved) == expected);
        let mut by_second = || assert!(judged(&table, &calls, second) == expected);
        let [proved, second] = measure(repeats, self.calls, [&mut by_proved, &mut by_second]);
        println!("{}; {} calls:", self.holds, self.calls);
        println!("  proved {proved}");
        println!("  second {second}");
        println!("  ratio  {:.2}", proved.median() / second.median());
    }
}

fn proved(table: &mut [u8], call: &Call) -> (u8, u8, bool) {
    let connection = raw::ConnectionTwo {
        clock: call.clock,
        name: &call.name,
        extension_came: !call.extension.is_empty(),
        extension: &call.extension,
        spki_sha256: &HASH,
        handshake_finished: true,
        keys_are_points: 3,
        signatures_correct: 3,
    };
    let judged = raw::judge_two(table, &connection);
    (judged.number, judged.alert, judged.no_room)
}

fn second(table: &mut [u8], call: &Call) -> (u8, u8, bool) {
    let connection = second::ConnectionTwo {
        clock: call.clock,
        name: &call.name,
        extension: (!call.extension.is_empty()).then_some(&call.extension[..]),
        spki_sha256: &HASH,
        handshake_finished: true,
        keys_are_points: 3,
        signatures_correct: 3,
    };
    let judged = second::judge_two(table, &connection);
    (judged.number, judged.alert, judged.no_room)
}

/// The answers, and the table afterwards.
type Outcome = (Vec<(u8, u8, bool)>, Vec<u8>);

fn judged(
    table: &[u8],
    calls: &[Call],
    judge: impl Fn(&mut [u8], &Call) -> (u8, u8, bool),
) -> Outcome {
    let mut table = table.to_vec();
    let answers = calls.iter().map(|call| judge(&mut table, call)).collect();
    (answers, table)
}

pub fn report(repeats: usize) {
    println!("Full tables of edition two, 64 names with two pins each. Microseconds a call: median (least to most) of {repeats} repeats.");
    for kind in KINDS {
        kind.report(repeats);
    }
}
