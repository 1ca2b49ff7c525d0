//! A night of recorded calls, all of edition one: what a gateway keeps of its connections, and the program `replay` reads.
//!
//! Two connections of one server are recorded, 600 minutes apart. A replay judges them from an empty table, the first as
//! unpinned and the second as confirmed:
//!
//! ```
//! use tack::extension;
//! use tack::night::{self, NotRecordable};
//! use tack::table::{Checks, Connection};
//!
//! // A tack of generation 3 that does not expire, activation enabled.
//! let (key, hash, signature) = ([0x11; 64], [0x77; 32], [0x55; 64]);
//! let tack = [&key[..], &[3, 3], &[0xff; 4], &hash, &signature].concat();
//! let mut shown = [0; 170];
//! extension::write(&tack, &[], true, &mut shown).expect("its parts have the right lengths");
//! let first = Connection::new(1000, b"a.b", &hash, Checks::all_passed()).with_extension(&shown);
//!
//! let mut night = Vec::new();
//! night::record(&first, &mut night)?;
//! night::record(&first.with_clock(1600), &mut night)?;
//!
//! // Each call is as long as the other, and begins with its clock and its name.
//! let (one, two) = night.split_at(229);
//! assert_eq!(one[..13], *b"\x01\0\x04\0\0\x03\xe8\x02\0\x03a.b");
//! assert_eq!(two[..13], *b"\x01\0\x04\0\0\x06\x40\x02\0\x03a.b");
//! assert_eq!(one[13..], two[13..]);
//!
//! // What cannot be recorded leaves the night as it was.
//! assert!(night::record(&first.with_clock(1 << 32), &mut night).is_err());
//! assert_eq!(night.len(), 458);
//! # Ok::<(), NotRecordable>(())
//! ```

use crate::raw;
use crate::table::Connection;
use std::fmt;

/// The bytes of the longest recorded call.
pub const LONGEST_CALL: usize = 4452;

/// The call has no recorded form: its clock is above 32 bits, its name above 300 bytes, its hash not of 32 bytes, or its
/// extension above 4,096 bytes. No alert goes with it.
#[derive(Debug, Clone, Copy, PartialEq, Eq, Hash)]
#[non_exhaustive]
pub struct NotRecordable;

impl NotRecordable {
    /// The refusal's number.
    pub fn number(self) -> u8 {
        25
    }
}

impl fmt::Display for NotRecordable {
    fn fmt(&self, f: &mut fmt::Formatter<'_>) -> fmt::Result {
        f.write_str("the clock, the name, the hash or the extension cannot be recorded")
    }
}

impl std::error::Error for NotRecordable {}

/// Appends one recorded call to the night, its name as it is spelled, and nothing on an error.
///
/// A recording has no place for [`learn_disabled`](crate::table::Checks::learn_disabled), and `replay` says yes in each call: a
/// gateway that judges by the default and meets disabled servers may be answered otherwise than the report of its night.
pub fn record(connection: &Connection, night: &mut Vec<u8>) -> Result<(), NotRecordable> {
    let mut call = [0; LONGEST_CALL];
    // There is always space, so 25 is the only refusal.
    let answer = raw::call_write(&connection.arguments(), &mut call);
    if answer.number != 9 {
        return Err(NotRecordable);
    }
    night.extend_from_slice(&call[..answer.written]);
    Ok(())
}
