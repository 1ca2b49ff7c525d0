//! Replays a night from standard input by a `judge` on lent bytes, and writes its report to standard output; or makes a part of
//! each call alone, for timing. Each call is judged as `replay` judges it, with the yes for disabled tacks.
//!
//! * `lent_replay judge`: the proved library's `judge`, which checks the 39,432 bytes in every call.
//! * `lent_replay second-judge`: the second program's, which parses and writes them in every call.
//! * `lent_replay PART`: behind the first 256 calls, which fill the table unless they bring no extension, a part alone in place of
//!   every call; the report has the total only. `check` and `second-check` are the soundness checks, `read` is the bare read of the
//!   table, `nothing` is nothing. The check up to one of its rules is that of a full table which breaks this rule in the last slot:
//!   `head`, `keys-shaped`, `keys-distinct`, `names-shaped`, `names-distinct`, `names-keyed`; behind them only 'each key has a name'
//!   is left.

use bench::bare_read;
use compare::area::{Area, KEY_SLOTS, NAME_SLOTS};
use compare::make::FILLING;
use second::Connection;
use std::hint::black_box;
use std::io::{self, BufWriter, Read, Write};
use std::process::ExitCode;
use tack::raw;

const USAGE: &str = "lent_replay judge | second-judge | check | second-check | read | nothing | head | keys-shaped | keys-distinct | names-shaped | names-distinct | names-keyed";

/// So many bytes of the night are read at a time.
const CHUNK: u64 = 1 << 20;

/// What a call is answered: number, alert and no room.
type Answer = (u8, u8, bool);

type Judge = fn(&mut [u8], &Connection) -> Answer;

fn by_second(table: &mut [u8], call: &Connection) -> Answer {
    let judged = second::judge(table, call);
    (judged.number, judged.alert, judged.no_room)
}

fn by_proved(table: &mut [u8], call: &Connection) -> Answer {
    let connection = raw::Connection {
        clock: call.clock,
        name: call.name,
        extension_came: call.extension.is_some(),
        extension: call.extension.unwrap_or_default(),
        spki_sha256: call.spki_sha256,
        handshake_finished: call.handshake_finished,
        key_is_point: call.key_is_point,
        signature_correct: call.signature_correct,
        breaks_correct: call.breaks_correct,
        learn_disabled: call.learn_disabled,
    };
    let judged = raw::judge(table, &connection);
    (judged.number, judged.alert, judged.no_room)
}

/// What comes in place of the calls: a table is damaged or left as it is, and then looked at again and again.
struct Part {
    damage: fn(&mut Area),
    look: fn(&[u8]),
}

const LAST_KEY: usize = KEY_SLOTS - 1;
const LAST_NAME: usize = NAME_SLOTS - 1;

const SOUND: fn(&mut Area) = |_| {};

impl Part {
    fn of(word: &str) -> Option<Part> {
        let sound = |look| {
            Some(Part {
                damage: SOUND,
                look,
            })
        };
        let damaged = |damage| {
            Some(Part {
                damage,
                look: damaged_check,
            })
        };
        match word {
            "check" => sound(check),
            "second-check" => sound(second_check),
            "read" => sound(read),
            "nothing" => sound(nothing),
            "head" => damaged(|area| area.bytes[4] = 1),
            "keys-shaped" => damaged(|area| area.key_slot_mut(LAST_KEY)[2] = 1),
            "keys-distinct" => damaged(|area| {
                let (floor, key) = (area.key_slot(LAST_KEY)[1], area.key(0));
                area.put_key(LAST_KEY, floor, &key);
            }),
            "names-shaped" => damaged(|area| area.name_slot_mut(LAST_NAME)[12] = 1),
            "names-distinct" => damaged(|area| {
                let name = area.name(0).to_vec();
                area.put_name(LAST_NAME, &name);
            }),
            "names-keyed" => damaged(|area| area.name_slot_mut(LAST_NAME)[1] = KEY_SLOTS as u8),
            _ => None,
        }
    }
}

/// By the inspection of the empty name, which is refused as soon as the table is found sound.
fn check(table: &[u8]) {
    assert_eq!(raw::inspect(table, b"", 0, false).number, 12);
}

fn damaged_check(table: &[u8]) {
    assert_eq!(raw::inspect(table, b"", 0, false).number, 11);
}

fn second_check(table: &[u8]) {
    assert!(second::is_sound(table));
}

fn read(table: &[u8]) {
    black_box(bare_read(table));
}

fn nothing(_: &[u8]) {}

/// The night as `each` takes it, call by call with its index, and how many calls there were if the night was good to its end.
fn replay(mut each: impl FnMut(u64, &Connection) -> io::Result<()>) -> io::Result<Option<u64>> {
    let mut night = io::stdin().lock();
    let mut bytes = Vec::new();
    let mut calls = 0;
    while night.by_ref().take(CHUNK).read_to_end(&mut bytes)? > 0 {
        let mut rest = &bytes[..];
        while let Some((call, behind)) = second::read_call(rest) {
            each(calls, &call)?;
            calls += 1;
            rest = behind;
        }
        let read = bytes.len() - rest.len();
        bytes.drain(..read);
    }
    Ok(bytes.is_empty().then_some(calls))
}

fn judged(judge: Judge, report: &mut impl Write) -> io::Result<Option<u64>> {
    let mut table = vec![0; second::AREA_LENGTH];
    replay(|index, call| {
        let (number, alert, no_room) = judge(&mut table, call);
        writeln!(report, "{index} {number} {alert} {}", u8::from(no_room))
    })
}

fn parts(part: &Part) -> io::Result<Option<u64>> {
    let mut area = Area::empty();
    replay(|index, call| {
        if index < FILLING as u64 {
            by_proved(&mut area.bytes, call);
            return Ok(());
        }
        if index == FILLING as u64 {
            (part.damage)(&mut area);
        }
        (part.look)(black_box(&area.bytes));
        Ok(())
    })
}

fn run(word: &str) -> io::Result<()> {
    let mut report = BufWriter::new(io::stdout().lock());
    let total = match (word, Part::of(word)) {
        ("judge", _) => judged(by_proved, &mut report)?,
        ("second-judge", _) => judged(by_second, &mut report)?,
        (_, Some(part)) => parts(&part)?,
        _ => return Err(io::Error::other(USAGE)),
    };
    match total {
        Some(calls) => writeln!(report, "total {calls}")?,
        None => writeln!(report, "bad")?,
    }
    report.flush()
}

fn main() -> ExitCode {
    let word = std::env::args().nth(1).unwrap_or_default();
    match run(&word) {
        Ok(()) => ExitCode::SUCCESS,
        Err(problem) => {
            eprintln!("{problem}");
            ExitCode::FAILURE
        }
    }
}
