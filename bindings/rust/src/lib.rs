//! The proved pin store for TLS gateways, in safe Rust.
//!
//! The work is done by `libtack.a`, whose every function is proved to meet its contract. This crate adds the field's names,
//! lifetimes and error types to calls of the C interface, and reads a table's edition off its byte 4.
//!
//! * [`extension`]: the TACK extension of edition one (May 2012 draft) read and written.
//! * [`extension_two`]: the same of edition two, which holds one or two tacks.
//! * [`table`]: the pin table, by which connections of either edition are judged.
//! * [`night`]: a night of recorded calls of edition one, which the program `replay` reads.
//! * [`minutes`]: a clock from a `SystemTime`.
//! * [`is_host_name`]: whether the store takes a name.
//! * [`raw`]: the C interface on slices, with the papers' own numbers.
//!
//! Every function answers for every input. An error carries the [`number`](table::Refused::number) that the gateway's papers
//! give it, and where a TLS alert may go with it the [`alert`](table::Refused::alert) that the library answered; it leaves all
//! lent memory as it was, but that [`Refusal::Expired`](table::Refusal::Expired) of edition one may raise one floor.
//!
//! # One connection
//!
//! The gateway verifies, with its own cryptography, and then asks the store:
//!
//! ```
//! use std::time::SystemTime;
//! use tack::extension::{self, Extension};
//! use tack::minutes;
//! use tack::table::{Checks, Connection, PinTable, Verdict};
//! # fn is_point(key: &[u8; 64]) -> bool { key[0] < 0xff }
//! # fn is_signed(key: &[u8; 64], message: &[u8], signature: &[u8; 64]) -> bool { key != signature && !message.is_empty() }
//!
//! /// The answers about an extension that came in a finished handshake.
//! fn checked(extension: &[u8]) -> Checks {
//!     let mut checks = Checks::default().with_handshake_finished(true);
//!     // A malformed extension is refused by the store, whatever the answers.
//!     let Ok(shown) = Extension::read(extension) else { return checks };
//!     for (i, broken) in shown.break_signatures().enumerate() {
//!         let correct = is_signed(broken.public_key(), b"tack_break_sig", broken.signature());
//!         checks.breaks_correct |= u8::from(correct) << i;
//!     }
//!     let mut message = [0; extension::SIGNED_LENGTH];
//!     if let (Some(tack), Ok(_)) = (shown.tack(), extension::signed_bytes(shown.tack_bytes(), &mut message)) {
//!         checks.key_is_point = is_point(tack.public_key());
//!         checks.signature_correct = is_signed(tack.public_key(), &message, tack.signature());
//!     }
//!     checks
//! }
//!
//! # let (spki_sha256, mut bytes) = ([0x77; 32], [0; 170]);
//! # let tack = [&[0x11; 64][..], &[3, 3], &[0xff; 4], &spki_sha256, &[0x55; 64]].concat();
//! # extension::write(&tack, &[], true, &mut bytes)?;
//! # let extension = &bytes;
//! let mut pins = PinTable::new();
//! let clock = minutes::since_1970(SystemTime::now())?;
//! let connection = Connection::new(clock, b"desk.example", &spki_sha256, checked(extension)).with_extension(extension);
//! match pins.judge(&connection) {
//!     Ok(judgement) => match judgement.verdict {
//!         Verdict::Unpinned | Verdict::Confirmed => println!("go on; no room for a pin: {}", judgement.no_room),
//!         _ => println!("close, with alert {}", judgement.alert),
//!     },
//!     // Alert 0 is none.
//!     Err(refused) => println!("close, with alert {}: {refused}, number {}", refused.alert(), refused.number()),
//! }
//! # assert_eq!(pins.judge(&connection)?.verdict, Verdict::Unpinned);
//! # assert!(pins.inspect(b"desk.example", clock)?.is_some());
//! # Ok::<(), Box<dyn std::error::Error>>(())
//! ```
//!
//! # What a later version may add
//!
//! Answers, errors, [`Connection`](table::Connection) and [`Checks`](table::Checks) are `#[non_exhaustive]`: a later version may
//! add a refusal or a field, and no caller has to change for it. So a `match` on an answer ends with an arm `_`, in which a
//! gateway closes the connection; a connection is made by `new` and `with_..`, and a check that a caller does not give is no.
//! [`Edition`](table::Edition), which a caller chooses, is not, and neither is [`raw`], which follows the C interface.

#![warn(missing_docs)]
#![deny(unsafe_op_in_unsafe_fn)]

pub mod extension;
pub mod extension_two;
pub mod minutes;
pub mod night;
pub mod raw;
pub mod table;

/// Whether the bytes are a host name that the store takes: labels of 1 to 63 bytes of letters, 0-9 and hyphen, no hyphen first
/// or last, joined by dots, 253 bytes at most. The letters are of either case: A-Z is taken as a-z.
///
/// ```
/// assert!(tack::is_host_name(b"desk.example"));
/// assert!(tack::is_host_name(b"Desk.Example"));
/// assert!(!tack::is_host_name(b"desk.example."));
/// ```
pub fn is_host_name(name: &[u8]) -> bool {
    raw::name_well_formed(name)
}
