//! A small gateway that keeps one table of pins for two tenants, a clinic and a school, and one of edition two for a pharmacy,
//! and says what each call gave.

use std::fmt;
use tack::table::{
    Checks, ChecksTwo, Connection, ConnectionTwo, Deletion, Edition, Inspection, Judgement,
    PinTable, Refused,
};
use tack::{extension, extension_two};

/// The SHA-256 of every server's SubjectPublicKeyInfo in these stories.
const HASH: [u8; 32] = [0x77; 32];
/// The verifier's part is played: each check passes.
const SIGNATURE: [u8; 64] = [0x55; 64];

/// A tack that does not expire. A key of these stories is one byte, 64 times.
fn tack(key: u8, min_generation: u8, generation: u8) -> Vec<u8> {
    let generations = [min_generation, generation];
    let parts: [&[u8]; 5] = [&[key; 64], &generations, &[0xff; 4], &HASH, &SIGNATURE];
    parts.concat()
}

/// What a server shows.
enum Shown {
    Nothing,
    Tack {
        key: u8,
        min_generation: u8,
        generation: u8,
    },
    Break {
        key: u8,
    },
}

impl Shown {
    /// The TACK extension, if one comes: a tack, activation enabled, or a break signature.
    fn extension(&self) -> Option<Vec<u8>> {
        let (tack, breaks) = match *self {
            Shown::Nothing => return None,
            Shown::Break { key } => (vec![], [[key; 64], SIGNATURE].concat()),
            Shown::Tack {
                key,
                min_generation,
                generation,
            } => (tack(key, min_generation, generation), vec![]),
        };
        let mut bytes = vec![0; extension::MAX_LENGTH];
        let written = extension::write(&tack, &breaks, true, &mut bytes).ok()?;
        bytes.truncate(written);
        Some(bytes)
    }
}

impl fmt::Display for Shown {
    fn fmt(&self, f: &mut fmt::Formatter<'_>) -> fmt::Result {
        match self {
            Shown::Nothing => f.write_str("no extension"),
            Shown::Tack {
                key,
                min_generation,
                generation,
            } => write!(
                f,
                "tack of key {key:02x}, generation {generation}, at least {min_generation}"
            ),
            Shown::Break { key } => write!(f, "break signature of key {key:02x}"),
        }
    }
}

/// What a server of edition two shows: the tacks of one or two keys, each enabled or not.
struct Tacks<'a>(&'a [(u8, bool)]);

impl Tacks<'_> {
    /// The TACK extension of edition two. All tacks are of generation 3.
    fn extension(&self) -> Option<Vec<u8>> {
        let tacks: Vec<u8> = self
            .0
            .iter()
            .flat_map(|&(key, _)| tack(key, 3, 3))
            .collect();
        let bits = self.0.iter().enumerate();
        let flags = bits.fold(0, |flags, (bit, &(_, enabled))| {
            flags | u8::from(enabled) << bit
        });
        let mut bytes = vec![0; extension_two::MAX_LENGTH];
        let written = extension_two::write(&tacks, flags, &mut bytes).ok()?;
        bytes.truncate(written);
        Some(bytes)
    }
}

impl fmt::Display for Tacks<'_> {
    fn fmt(&self, f: &mut fmt::Formatter<'_>) -> fmt::Result {
        let tacks: Vec<String> = self.0.iter().map(shown).collect();
        write!(f, "tack of key {}", tacks.join(", of "))
    }
}

fn shown(&(key, enabled): &(u8, bool)) -> String {
    let word = if enabled { "enabled" } else { "disabled" };
    format!("{key:02x} {word}")
}

/// A call's number and alert, and what they mean.
type Answer = (u8, u8, String);

/// The table of pins, and a line for each call.
struct Gateway {
    pins: PinTable,
    report: String,
}

impl Gateway {
    fn of_edition(edition: Edition) -> Gateway {
        Gateway {
            pins: PinTable::of_edition(edition),
            report: String::new(),
        }
    }

    fn say(&mut self, clock: u64, name: &str, call: &str, (number, alert, words): Answer) {
        let line =
            format!("{clock:>5}  {name:<22}  {call:<40}  {number:>6}  {alert:>5}  {words}\n");
        self.report.push_str(&line);
    }

    /// A finished connection.
    fn connect(&mut self, clock: u64, name: &str, shown: &Shown) {
        let extension = shown.extension();
        let checks = Checks::all_passed();
        let mut connection = Connection::new(clock, name.as_bytes(), &HASH, checks);
        connection.extension = extension.as_deref();
        let answer = judged(self.pins.judge(&connection));
        self.say(clock, name, &shown.to_string(), answer);
    }

    /// A finished connection of edition two.
    fn connect_two(&mut self, clock: u64, name: &str, shown: &Tacks) {
        let extension = shown.extension();
        let checks = ChecksTwo::all_passed();
        let mut connection = ConnectionTwo::new(clock, name.as_bytes(), &HASH, checks);
        connection.extension = extension.as_deref();
        let answer = judged(self.pins.judge_two(&connection));
        self.say(clock, name, &shown.to_string(), answer);
    }

    fn inspect(&mut self, clock: u64, name: &str) {
        let answer = inspected(self.pins.inspect(name.as_bytes(), clock));
        self.say(clock, name, "(inspection)", answer);
    }

    fn inspect_second(&mut self, clock: u64, name: &str) {
        let answer = inspected(self.pins.inspect_second(name.as_bytes(), clock));
        self.say(clock, name, "(inspection of the second record)", answer);
    }

    fn delete(&mut self, clock: u64, name: &str) {
        let answer = match self.pins.delete(name.as_bytes()) {
            Ok(deletion) => (deletion.number(), 0, deleted(deletion).to_string()),
            Err(refusal) => refused(refusal),
        };
        self.say(clock, name, "(deletion)", answer);
    }
}

fn judged(judged: Result<Judgement, Refused>) -> Answer {
    match judged {
        Ok(given) => (
            given.verdict.number(),
            given.alert,
            given.verdict.to_string(),
        ),
        Err(refusal) => refused(refusal),
    }
}

fn inspected(inspected: Result<Option<Inspection>, Refused>) -> Answer {
    match inspected {
        Ok(None) => (4, 0, "not recorded".to_string()),
        Ok(Some(record)) => {
            let made = format!("made at {}, floor {}", record.initial, record.floor);
            match record.end.zip(record.minutes_left) {
                None => (5, 0, format!("{made}, not activated")),
                Some((end, left)) => (6, 0, format!("{made}, end {end}, minutes left {left}")),
            }
        }
        Err(refusal) => refused(refusal),
    }
}

fn deleted(deletion: Deletion) -> &'static str {
    match deletion {
        Deletion::Deleted => "deleted",
        _ => "not recorded",
    }
}

fn refused(refused: Refused) -> Answer {
    let words = format!("refused: {refused}");
    (refused.number(), refused.alert(), words)
}

/// A pin is made, activated, contradicted, and ends. Browsers spell its name with capitals.
fn clinic(gateway: &mut Gateway) {
    let name = "desk.clinic.example";
    let ours = Shown::Tack {
        key: 0x11,
        min_generation: 3,
        generation: 3,
    };
    let another = Shown::Tack {
        key: 0x22,
        min_generation: 0,
        generation: 0,
    };
    gateway.connect(1000, name, &ours);
    gateway.inspect(1000, name);
    gateway.connect(1600, name, &ours);
    gateway.inspect(1600, name);
    gateway.connect(1599, name, &ours);
    gateway.connect(2000, name, &another);
    gateway.connect(2199, "Desk.Clinic.Example", &Shown::Nothing);
    gateway.connect(2200, name, &Shown::Nothing);
    gateway.inspect(2300, "DESK.CLINIC.EXAMPLE");
    gateway.delete(2300, name);
}

/// Two names under one key: a generation is revoked, then the key itself.
fn school(gateway: &mut Gateway) {
    let (desk, library) = ("desk.school.example", "library.school.example");
    let tack = |min_generation, generation| Shown::Tack {
        key: 0x33,
        min_generation,
        generation,
    };
    for name in [desk, library] {
        gateway.connect(3000, name, &tack(3, 3));
    }
    for name in [desk, library] {
        gateway.connect(3600, name, &tack(3, 3));
    }
    gateway.connect(3700, desk, &tack(4, 4));
    gateway.connect(3700, library, &tack(3, 3));
    gateway.connect(3700, library, &tack(4, 3));
    gateway.connect(3800, desk, &Shown::Break { key: 0x33 });
    gateway.connect(3800, library, &Shown::Nothing);
    for name in [desk, library] {
        gateway.inspect(3800, name);
    }
}

/// Edition two: a server moves from one key to another through two tacks. The old tack is disabled when the new key's pin
/// stands, and shown until its own has ended.
fn pharmacy(gateway: &mut Gateway) {
    let name = "desk.pharmacy.example";
    let (old, new) = (0x44, 0x45);
    let both = Tacks(&[(old, true), (new, true)]);
    gateway.connect_two(4000, name, &Tacks(&[(old, true)]));
    gateway.connect_two(4600, name, &Tacks(&[(old, true)]));
    gateway.connect_two(4700, name, &both);
    gateway.connect_two(4900, name, &both);
    gateway.inspect(4900, name);
    gateway.inspect_second(4900, name);
    gateway.connect_two(4900, name, &Tacks(&[(new, true)]));
    gateway.connect_two(4900, name, &Tacks(&[(new, true), (new, true)]));
    gateway.connect_two(5700, name, &Tacks(&[(old, false), (new, true)]));
    gateway.connect_two(5800, name, &Tacks(&[(new, true)]));
    gateway.inspect(5800, name);
    gateway.inspect_second(5800, name);
    gateway.connect(5800, name, &Shown::Nothing);
    gateway.delete(5800, name);
}

/// The first two stories on one table, the third on one of edition two.
fn report() -> String {
    let mut gateway = Gateway::of_edition(Edition::One);
    clinic(&mut gateway);
    school(&mut gateway);
    let mut gateway_two = Gateway::of_edition(Edition::Two);
    pharmacy(&mut gateway_two);
    format!(
        "{:>5}  {:<22}  {:<40}  number  alert\n{}{}",
        "clock", "name", "shown", gateway.report, gateway_two.report
    )
}

fn main() {
    print!("{}", report());
}

#[test]
fn as_stored() {
    assert_eq!(report(), include_str!("gateway.expected"));
}
