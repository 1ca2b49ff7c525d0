//! The TACK extension of edition one: reader, parts and writers. [`extension_two`](crate::extension_two) has edition two.
//!
//! ```
//! use tack::extension::{self, Extension};
//!
//! // A server's extension: one tack, no break signatures, activation enabled.
//! let tack = [0x11u8; extension::TACK_LENGTH];
//! let mut bytes = [0u8; extension::MAX_LENGTH];
//! let length = extension::write(&tack, &[], true, &mut bytes)?;
//! assert_eq!(length, 170);
//!
//! let read = Extension::read(&bytes[..length]).expect("it is well-formed");
//! assert!(read.activation_enabled());
//! assert_eq!(read.tack().expect("it holds a tack").generation(), 0x11);
//! assert_eq!(read.break_signatures().count(), 0);
//!
//! // One byte more is refused: number 16, alert decode_error.
//! let refused = Extension::read(&bytes[..length + 1]).unwrap_err();
//! assert_eq!((refused.number(), refused.alert()), (16, 50));
//! # Ok::<(), extension::WriteError>(())
//! ```

use crate::raw;
use std::fmt;

/// The bytes of a tack.
pub const TACK_LENGTH: usize = 166;
/// The bytes of a break signature.
pub const BREAK_SIGNATURE_LENGTH: usize = 128;
/// The bytes of the longest extension: a tack and eight break signatures.
pub const MAX_LENGTH: usize = 1194;
/// The bytes that the signature of a tack covers.
pub const SIGNED_LENGTH: usize = 110;

/// The bytes are no well-formed extension of the edition in which they were read.
#[derive(Debug, Clone, Copy, PartialEq, Eq, Hash)]
pub struct Malformed {
    number: u8,
    alert: u8,
}

impl Malformed {
    /// The refusal's number: 16.
    pub fn number(self) -> u8 {
        self.number
    }

    /// The TLS alert that goes with it: 50, decode_error, in edition one, and 42, bad_certificate, in edition two.
    pub fn alert(self) -> u8 {
        self.alert
    }
}

impl fmt::Display for Malformed {
    fn fmt(&self, f: &mut fmt::Formatter<'_>) -> fmt::Result {
        f.write_str("the bytes are no well-formed TACK extension")
    }
}

impl std::error::Error for Malformed {}

/// A reader's answer: the activation, or in edition two the flags.
pub(crate) fn read(answer: raw::Reading) -> Result<u8, Malformed> {
    match answer.number {
        9 => Ok(answer.activation),
        number => Err(Malformed {
            number,
            alert: answer.alert,
        }),
    }
}

/// Why a writer wrote nothing, in either edition. No alert goes with it.
#[derive(Debug, Clone, Copy, PartialEq, Eq, Hash)]
#[non_exhaustive]
pub enum WriteError {
    /// 25: a part has a length, or the flags a value, that no extension can have.
    BadPart = 25,
    /// 26: the output is too small.
    NoSpace = 26,
}

impl WriteError {
    /// The refusal's number.
    pub fn number(self) -> u8 {
        self as u8
    }
}

impl fmt::Display for WriteError {
    fn fmt(&self, f: &mut fmt::Formatter<'_>) -> fmt::Result {
        f.write_str(match self {
            WriteError::BadPart => {
                "a part of the extension has a wrong length, or the flags a wrong value"
            }
            WriteError::NoSpace => "the output is too small",
        })
    }
}

impl std::error::Error for WriteError {}

/// A well-formed extension, as parts of the bytes that it was read from.
#[derive(Debug, Clone, Copy, PartialEq, Eq)]
pub struct Extension<'a> {
    tack: &'a [u8],
    breaks: &'a [u8],
    enabled: bool,
}

impl<'a> Extension<'a> {
    /// Reads an extension.
    pub fn read(bytes: &'a [u8]) -> Result<Extension<'a>, Malformed> {
        let activation = read(raw::extension_read(bytes))?;
        let tack = raw::extension_tack(bytes);
        let breaks = raw::extension_breaks(bytes);
        Ok(Extension {
            tack: &bytes[tack.start..tack.start + tack.length],
            breaks: &bytes[breaks.start..breaks.start + breaks.length],
            enabled: activation == 1,
        })
    }

    /// The tack, if the extension holds one.
    pub fn tack(&self) -> Option<Tack<'a>> {
        Tack::of(self.tack)
    }

    /// The bytes that hold the tack: 166, or none.
    pub fn tack_bytes(&self) -> &'a [u8] {
        self.tack
    }

    /// The bytes that hold the break signatures: 128 for each.
    pub fn break_bytes(&self) -> &'a [u8] {
        self.breaks
    }

    /// The break signatures, in order.
    pub fn break_signatures(&self) -> impl Iterator<Item = BreakSignature<'a>> {
        self.breaks
            .chunks_exact(BREAK_SIGNATURE_LENGTH)
            .filter_map(|bytes| bytes.try_into().ok().map(BreakSignature))
    }

    /// Whether pin activation is enabled.
    pub fn activation_enabled(&self) -> bool {
        self.enabled
    }
}

/// A tack: a public key's promise for a target hash. It is the same in both editions.
#[derive(Debug, Clone, Copy, PartialEq, Eq)]
pub struct Tack<'a>(&'a [u8; TACK_LENGTH]);

impl<'a> Tack<'a> {
    /// The bytes as a tack, if there are 166.
    pub(crate) fn of(bytes: &'a [u8]) -> Option<Tack<'a>> {
        bytes.try_into().ok().map(Tack)
    }

    /// The tack key, as the two coordinates of a P-256 point.
    pub fn public_key(&self) -> &'a [u8; 64] {
        field(self.0, 0)
    }

    /// The least generation that the key's owner still stands by.
    pub fn min_generation(&self) -> u8 {
        self.0[64]
    }

    /// The generation of this tack.
    pub fn generation(&self) -> u8 {
        self.0[65]
    }

    /// When the tack expires, in minutes since 1970, not seconds.
    pub fn expiration(&self) -> u32 {
        u32::from_be_bytes(*field(self.0, 66))
    }

    /// The SHA-256 of the server's SubjectPublicKeyInfo.
    pub fn target_hash(&self) -> &'a [u8; 32] {
        field(self.0, 70)
    }

    /// The tack key's signature over [`signed_bytes`].
    pub fn signature(&self) -> &'a [u8; 64] {
        field(self.0, 102)
    }
}

/// A break signature: a tack key's word that its pins are void.
#[derive(Debug, Clone, Copy, PartialEq, Eq)]
pub struct BreakSignature<'a>(&'a [u8; BREAK_SIGNATURE_LENGTH]);

impl<'a> BreakSignature<'a> {
    /// The tack key whose pins are void.
    pub fn public_key(&self) -> &'a [u8; 64] {
        field(self.0, 0)
    }

    /// The key's signature.
    pub fn signature(&self) -> &'a [u8; 64] {
        field(self.0, 64)
    }
}

/// The N bytes from this place on, all within the tack or the break signature.
fn field<const N: usize>(bytes: &[u8], at: usize) -> &[u8; N] {
    bytes[at..].first_chunk().expect("the field lies within")
}

/// A writer's answer.
pub(crate) fn written(answer: raw::Writing) -> Result<usize, WriteError> {
    match answer.number {
        9 => Ok(answer.written),
        25 => Err(WriteError::BadPart),
        _ => Err(WriteError::NoSpace),
    }
}

/// Writes an extension at the start of `out` and gives the number of bytes written.
///
/// The tack has 0 or 166 bytes, the break signatures 128 each and at most eight of them. No byte behind the extension changes,
/// and none at all on an error.
pub fn write(
    tack: &[u8],
    breaks: &[u8],
    activation_enabled: bool,
    out: &mut [u8],
) -> Result<usize, WriteError> {
    let activation = u8::from(activation_enabled);
    written(raw::extension_write(tack, breaks, activation, out))
}

/// Writes the 110 bytes that the signature of a tack covers, for a verifier, and gives their number.
pub fn signed_bytes(tack: &[u8], out: &mut [u8]) -> Result<usize, WriteError> {
    written(raw::signed_bytes(tack, out))
}
