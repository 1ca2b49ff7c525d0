//! The soundness check against the bare read of the table.

use crate::tables::{self, Shape, FULL};
use crate::timing::{measure, Timing};
use bench::bare_read;
use std::hint::black_box;
use tack::raw;

const CALLS: usize = 200;

/// The bare read, the proved check and the second program's. The proved one is timed by the inspection of a name that is not
/// there, which does little else.
pub fn timings(table: &[u8], name_length: usize, repeats: usize) -> [Timing; 3] {
    let absent = tables::name(999, name_length);
    let expected = bare_read(table);
    let mut read = || {
        for _ in 0..CALLS {
            assert_eq!(bare_read(black_box(table)), expected);
        }
    };
    let mut proved = || {
        for _ in 0..CALLS {
            assert_eq!(raw::inspect(black_box(table), &absent, 0, false).number, 4);
        }
    };
    let mut second = || {
        for _ in 0..CALLS {
            assert!(second::is_sound(black_box(table)));
        }
    };
    measure(repeats, CALLS, [&mut read, &mut proved, &mut second])
}

pub fn report(repeats: usize) {
    println!("The soundness check of a table, in microseconds: median (least to most) of {repeats} repeats");
    println!(
        "{:>5} {:>5} {:>6}  {:<24} {:<26} {:<26} {:>11} {:>13}",
        "names", "keys", "bytes", "bare read", "proved", "second", "proved/read", "proved/second"
    );
    let empty = Shape {
        names: 0,
        keys: 0,
        ..FULL
    };
    line(empty, repeats);
    for (names, keys) in [(64, 32), (128, 64)] {
        for name_length in [20, 60, 253] {
            let shape = Shape {
                names,
                keys,
                name_length,
            };
            line(shape, repeats);
        }
    }
}

fn line(shape: Shape, repeats: usize) {
    let Shape {
        names,
        keys,
        name_length,
    } = shape;
    let [read, proved, second] = timings(&tables::table(shape), name_length, repeats);
    let to_read = proved.median() / read.median();
    let to_second = proved.median() / second.median();
    println!(
        "{names:>5} {keys:>5} {name_length:>6}  {read:<24} {proved:<26} {second:<26} {to_read:>11.1} {to_second:>13.2}"
    );
}
