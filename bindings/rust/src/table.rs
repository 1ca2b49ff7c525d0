//! The pin table: connections judged, names deleted and inspected.
//!
//! A clinic's server shows a tack, enabled. The first connection makes a pin, the next one activates it for as long as it has stood,
//! and until it ends a server without the key is contradicted:
//!
//! ```
//! use tack::extension;
//! use tack::table::{Checks, Connection, PinTable, Refused, Verdict};
//!
//! /// An extension with one tack of generation 3 that does not expire, activation enabled.
//! fn showing(key: &[u8; 64], target_hash: &[u8; 32]) -> Vec<u8> {
//!     let signature = [0x55; 64];
//!     let tack = [&key[..], &[3, 3], &[0xff; 4], target_hash, &signature].concat();
//!     let mut bytes = vec![0; 4 + tack.len()];
//!     extension::write(&tack, &[], true, &mut bytes).expect("its parts have the right lengths");
//!     bytes
//! }
//!
//! let hash = [0x77; 32];
//! let (ours, another) = (showing(&[0x11; 64], &hash), showing(&[0x22; 64], &hash));
//! // The caller verified the tack's signature and the rest before.
//! let first = Connection::new(1000, b"desk.clinic.example", &hash, Checks::all_passed()).with_extension(&ours);
//! let mut pins = PinTable::new();
//!
//! // The pin is made, and stands inactive.
//! assert_eq!(pins.judge(&first)?.verdict, Verdict::Unpinned);
//!
//! // After 600 minutes it is activated for 600 more.
//! assert_eq!(pins.judge(&first.with_clock(1600))?.verdict, Verdict::Confirmed);
//! let record = pins.inspect(first.name, 1600)?.expect("it is recorded");
//! assert_eq!((record.initial, record.end, record.minutes_left), (1000, Some(2200), Some(600)));
//!
//! // Another key, or none at all, contradicts it: the gateway sends alert 49, access_denied.
//! let impostor = first.with_clock(2000).with_extension(&another);
//! assert_eq!(pins.judge(&impostor)?.verdict, Verdict::Contradicted);
//! let silent = first.with_clock(2199).without_extension();
//! assert_eq!(pins.judge(&silent)?.alert, 49);
//!
//! // At its end a pin is no longer active.
//! assert_eq!(pins.judge(&silent.with_clock(2200))?.verdict, Verdict::Unpinned);
//! # Ok::<(), Refused>(())
//! ```
//!
//! A table is of one [`Edition`] of the draft. [`PinTable::judge_two`] tells how a server of edition two moves from one key to
//! another through two tacks.

mod answer;
mod checks;
mod connection;
mod edition;
mod refusal;

pub use answer::{Deletion, Inspection, Judgement, Verdict};
pub use checks::{Checks, ChecksTwo};
pub use connection::{Connection, ConnectionTwo};
pub use edition::Edition;
pub use refusal::{NoRefusal, Refusal, Refused};

use crate::raw;
use std::fmt;

/// The bytes of a pin table.
pub const AREA_LENGTH: usize = 39_432;

/// Where the edition stands: 0 for edition one, 1 for edition two.
const EDITION_AT: usize = 4;

/// Up to 128 pins of names under up to 64 keys.
///
/// A name is spelled in letters of either case: every call takes A-Z as a-z, and the table keeps small letters only.
///
/// A `PinTable` is always sound, so [`Refusal::AreaLength`] and [`Refusal::Damaged`] come from
/// [`from_bytes`](PinTable::from_bytes) alone.
///
/// A school has two names under one key. It revokes a generation, and later the key itself, by a break signature:
///
/// ```
/// # use tack::extension;
/// # use tack::table::{Checks, Connection, PinTable, Refusal, Refused, Verdict};
/// /// An extension with the given tack and break signatures, activation enabled.
/// fn extension(tack: &[u8], breaks: &[u8]) -> Vec<u8> {
///     let mut bytes = vec![0; 4 + tack.len() + breaks.len()];
///     extension::write(tack, breaks, true, &mut bytes).expect("its parts have the right lengths");
///     bytes
/// }
///
/// let (key, hash, signature) = ([0x11; 64], [0x77; 32], [0x55; 64]);
/// let tack = |min_generation: u8, generation: u8| {
///     [&key[..], &[min_generation, generation], &[0xff; 4], &hash, &signature].concat()
/// };
/// let third = extension(&tack(3, 3), &[]);
/// let desk = Connection::new(1000, b"desk.school.example", &hash, Checks::all_passed()).with_extension(&third);
/// let library = desk.with_name(b"library.school.example");
/// let mut pins = PinTable::new();
/// pins.judge(&desk)?;
/// pins.judge(&library)?;
///
/// // Generation 3 is the least that the school stands by, so a tack of generation 2 is refused at both names.
/// let second = extension(&tack(2, 2), &[]);
/// for name in [desk.name, library.name] {
///     let refused = pins.judge(&desk.with_name(name).with_extension(&second)).unwrap_err();
///     assert_eq!(refused.refusal(), Refusal::GenerationRevoked);
///     assert_eq!((refused.number(), refused.alert()), (22, 44));
/// }
///
/// // The break signature, shown at one name, takes the key's pins at both.
/// let broken = extension(&[], &[key, signature].concat());
/// let judgement = pins.judge(&desk.with_clock(1600).with_extension(&broken))?;
/// assert_eq!(judgement.verdict, Verdict::Unpinned);
/// for name in [desk.name, library.name] {
///     assert_eq!(pins.inspect(name, 1600)?, None);
/// }
/// # Ok::<(), Refused>(())
/// ```
#[derive(Clone, PartialEq, Eq)]
pub struct PinTable {
    area: Box<[u8; AREA_LENGTH]>,
}

impl PinTable {
    /// An empty table of edition one.
    pub fn new() -> PinTable {
        PinTable::of_edition(Edition::One)
    }

    /// An empty table of either edition.
    pub fn of_edition(edition: Edition) -> PinTable {
        let mut table = PinTable {
            area: Box::new([0; AREA_LENGTH]),
        };
        table.start(edition);
        table
    }

    /// The table's edition.
    pub fn edition(&self) -> Edition {
        match self.area[EDITION_AT] {
            0 => Edition::One,
            // A sound table has no other byte there than 0 and 1.
            _ => Edition::Two,
        }
    }

    /// A table from bytes that [`PinTable::as_bytes`] gave, or from any others: 10 and 11 are the refusals.
    ///
    /// ```
    /// use tack::table::{PinTable, Refusal, AREA_LENGTH};
    ///
    /// let mut bytes = PinTable::new().as_bytes().to_vec();
    /// assert!(PinTable::from_bytes(&bytes).is_ok());
    /// assert_eq!(PinTable::from_bytes(&bytes[1..]).unwrap_err().refusal(), Refusal::AreaLength);
    /// bytes[AREA_LENGTH - 1] = 1;
    /// assert_eq!(PinTable::from_bytes(&bytes).unwrap_err().refusal(), Refusal::Damaged);
    /// ```
    pub fn from_bytes(bytes: &[u8]) -> Result<PinTable, Refused> {
        // Any name would do: inspection looks at the table first.
        let answer = raw::inspect(bytes, b"a", 0, false);
        if answer.number >= 10 {
            return Err(Refused::new(answer.number, answer.alert));
        }
        let area = Box::try_from(bytes.to_vec()).expect("the library refuses every other length");
        Ok(PinTable { area })
    }

    /// The table's bytes, to be kept.
    pub fn as_bytes(&self) -> &[u8; AREA_LENGTH] {
        &self.area
    }

    /// Judges one finished connection of edition one and brings the table up to date. By a table of edition two it is refused
    /// with [`Refusal::OtherEdition`]. A refusal changes nothing, but [`Refusal::Expired`] may raise one floor. A server that
    /// shows its tack disabled gets no pin, unless the caller [asks for it](Checks::learn_disabled).
    pub fn judge(&mut self, connection: &Connection) -> Result<Judgement, Refused> {
        judgement(raw::judge(&mut self.area[..], &connection.arguments()))
    }

    /// Judges one finished connection of edition two and brings the table up to date. By a table of edition one it is refused
    /// with [`Refusal::OtherEdition`].
    ///
    /// A server moves from one key to another. Meanwhile it shows the tacks of both; once the new key's pin stands, it disables
    /// the old tack, and drops it when the old pin has ended:
    ///
    /// ```
    /// # use tack::extension_two;
    /// # use tack::table::{ChecksTwo, ConnectionTwo, Edition, PinTable, Refused, Verdict};
    /// /// An extension with tacks of these keys, each of generation 3 and without an expiration, and with these flags.
    /// fn showing(keys: &[u8], flags: u8) -> Vec<u8> {
    ///     let tack = |key: &u8| [&[*key; 64][..], &[3, 3], &[0xff; 4], &[0x77; 32], &[0x55; 64]].concat();
    ///     let tacks: Vec<u8> = keys.iter().flat_map(tack).collect();
    ///     let mut bytes = vec![0; 3 + tacks.len()];
    ///     extension_two::write(&tacks, flags, &mut bytes).expect("its parts have the right lengths");
    ///     bytes
    /// }
    ///
    /// let (old, new) = (0x11, 0x22);
    /// let connection = ConnectionTwo::new(1000, b"desk.clinic.example", &[0x77; 32], ChecksTwo::all_passed());
    /// let mut pins = PinTable::of_edition(Edition::Two);
    /// let mut verdict = |clock, extension: &[u8]| {
    ///     let shown = connection.with_clock(clock).with_extension(extension);
    ///     pins.judge_two(&shown).map(|judgement| judgement.verdict)
    /// };
    ///
    /// // The old key's pin is made, and activated for 600 minutes from 1600 on.
    /// let old_alone = showing(&[old], 0b1);
    /// assert_eq!(verdict(1000, &old_alone)?, Verdict::Unpinned);
    /// assert_eq!(verdict(1600, &old_alone)?, Verdict::Unpinned);
    ///
    /// // The new key beside it gets a pin of its own; shown alone it would be contradicted.
    /// let both = showing(&[old, new], 0b11);
    /// assert_eq!(verdict(1700, &both)?, Verdict::Confirmed);
    /// assert_eq!(verdict(1900, &both)?, Verdict::Confirmed);
    /// let new_alone = showing(&[new], 0b1);
    /// assert_eq!(verdict(1900, &new_alone)?, Verdict::Contradicted);
    ///
    /// // The old tack, disabled, is shown until its pin ends at 2800. Then the new pin stands alone.
    /// let old_disabled = showing(&[old, new], 0b10);
    /// assert_eq!(verdict(2700, &old_disabled)?, Verdict::Confirmed);
    /// assert_eq!(verdict(2800, &new_alone)?, Verdict::Confirmed);
    /// let record = pins.inspect(b"desk.clinic.example", 2800)?.expect("it is recorded");
    /// assert_eq!((record.initial, record.minutes_left), (1700, Some(1100)));
    /// assert_eq!(pins.inspect_second(b"desk.clinic.example", 2800)?, None);
    /// # Ok::<(), Refused>(())
    /// ```
    pub fn judge_two(&mut self, connection: &ConnectionTwo) -> Result<Judgement, Refused> {
        judgement(raw::judge_two(&mut self.area[..], &connection.arguments()))
    }

    /// Removes a name's record, in edition two both records, and each key if no name is left on it; 12 is the only refusal.
    ///
    /// ```
    /// use tack::table::{Deletion, PinTable, Refusal};
    ///
    /// let mut pins = PinTable::new();
    /// assert_eq!(pins.delete(b"Desk.Example"), Ok(Deletion::NotRecorded));
    /// assert_eq!(pins.delete(b"desk.example.").unwrap_err().refusal(), Refusal::NameMalformed);
    /// ```
    pub fn delete(&mut self, name: &[u8]) -> Result<Deletion, Refused> {
        let answer = raw::delete(&mut self.area[..], name);
        match answer.number {
            3 => Ok(Deletion::Deleted),
            4 => Ok(Deletion::NotRecorded),
            number => Err(Refused::new(number, answer.alert)),
        }
    }

    /// Looks at a name's record, in edition two at the first by the order of the slots; 12 and 13 are the refusals. The clock
    /// may lie before that of the latest connection.
    pub fn inspect(&self, name: &[u8], clock: u64) -> Result<Option<Inspection>, Refused> {
        inspection(raw::inspect(&self.area[..], name, clock, false))
    }

    /// Looks at a name's second record in the same way. Only in edition two there may be one.
    pub fn inspect_second(&self, name: &[u8], clock: u64) -> Result<Option<Inspection>, Refused> {
        inspection(raw::inspect(&self.area[..], name, clock, true))
    }

    /// Empties the table, for this edition.
    pub fn start(&mut self, edition: Edition) {
        // The only refusal is that of another length.
        raw::start(&mut self.area[..], edition == Edition::Two);
    }
}

/// An empty table of edition one.
impl Default for PinTable {
    fn default() -> PinTable {
        PinTable::new()
    }
}

/// Without the bytes, which nobody would read.
impl fmt::Debug for PinTable {
    fn fmt(&self, f: &mut fmt::Formatter<'_>) -> fmt::Result {
        f.debug_struct("PinTable").finish_non_exhaustive()
    }
}

/// The verdict, or the refusal.
fn judgement(answer: raw::Judgement) -> Result<Judgement, Refused> {
    let verdict = match answer.number {
        0 => Verdict::Unpinned,
        1 => Verdict::Confirmed,
        2 => Verdict::Contradicted,
        number => return Err(Refused::new(number, answer.alert)),
    };
    Ok(Judgement {
        verdict,
        alert: answer.alert,
        no_room: answer.no_room,
    })
}

/// The record, if there is one, or the refusal.
fn inspection(answer: raw::Inspection) -> Result<Option<Inspection>, Refused> {
    let has_end = match answer.number {
        4 => return Ok(None),
        5 => false,
        6 => true,
        number => return Err(Refused::new(number, answer.alert)),
    };
    Ok(Some(Inspection {
        floor: answer.floor,
        initial: answer.initial,
        end: has_end.then_some(answer.end),
        minutes_left: has_end.then_some(answer.minutes_left),
    }))
}
