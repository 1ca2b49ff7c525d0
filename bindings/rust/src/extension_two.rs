//! The TACK extension of edition two: one or two tacks, each enabled by a bit of the flags. Reader, parts and writer.
//!
//! ```
//! use tack::extension::WriteError;
//! use tack::extension_two::{self, Extension};
//!
//! // A server on its way from one key to another shows the tacks of both; only the second is enabled.
//! let tacks = [[0x11u8; 166], [0x22; 166]].concat();
//! let mut bytes = [0u8; extension_two::MAX_LENGTH];
//! let length = extension_two::write(&tacks, 0b10, &mut bytes)?;
//! assert_eq!(length, 335);
//!
//! let read = Extension::read(&bytes[..length]).expect("it is well-formed");
//! assert!(!read.first_enabled() && read.second_enabled());
//! assert_eq!(read.first().generation(), 0x11);
//! assert_eq!(read.second().expect("it holds two tacks").generation(), 0x22);
//!
//! // With one tack there is no second to enable, neither to be written nor to be read.
//! assert_eq!(extension_two::write(&tacks[..166], 0b10, &mut bytes), Err(WriteError::BadPart));
//! let length = extension_two::write(&tacks[..166], 0b01, &mut bytes)?;
//! bytes[length - 1] = 0b10;
//! let refused = Extension::read(&bytes[..length]).unwrap_err();
//! assert_eq!((refused.number(), refused.alert()), (16, 42));
//! # Ok::<(), WriteError>(())
//! ```

use crate::extension::{read, written, Malformed, Tack, WriteError};
use crate::raw;

/// The bytes of the longest extension: two tacks.
pub const MAX_LENGTH: usize = 335;

/// The bit of the flags that enables the first tack.
pub const FIRST_ENABLED: u8 = 0b01;
/// The bit of the flags that enables the second tack.
pub const SECOND_ENABLED: u8 = 0b10;

/// A well-formed extension, as parts of the bytes that it was read from.
#[derive(Debug, Clone, Copy, PartialEq, Eq)]
pub struct Extension<'a> {
    tacks: &'a [u8],
    first: Tack<'a>,
    second: Option<Tack<'a>>,
    flags: u8,
}

impl<'a> Extension<'a> {
    /// Reads an extension.
    pub fn read(bytes: &'a [u8]) -> Result<Extension<'a>, Malformed> {
        let flags = read(raw::extension_two_read(bytes))?;
        let first = raw::extension_two_tack(bytes, false);
        let second = raw::extension_two_tack(bytes, true);
        let part = |span: raw::Span| &bytes[span.start..span.start + span.length];
        Ok(Extension {
            tacks: &bytes[first.start..][..first.length + second.length],
            first: Tack::of(part(first)).expect("a well-formed extension has a first tack"),
            second: Tack::of(part(second)),
            flags,
        })
    }

    /// The first tack.
    pub fn first(&self) -> Tack<'a> {
        self.first
    }

    /// The second tack, if the extension holds two.
    pub fn second(&self) -> Option<Tack<'a>> {
        self.second
    }

    /// The bytes that hold the tacks: 166 or 332.
    pub fn tack_bytes(&self) -> &'a [u8] {
        self.tacks
    }

    /// Whether the first tack is enabled.
    pub fn first_enabled(&self) -> bool {
        self.flags & FIRST_ENABLED != 0
    }

    /// Whether there is a second tack that is enabled.
    pub fn second_enabled(&self) -> bool {
        self.flags & SECOND_ENABLED != 0
    }

    /// The flags: [`FIRST_ENABLED`], [`SECOND_ENABLED`], both or none.
    pub fn flags(&self) -> u8 {
        self.flags
    }
}

/// Writes an extension at the start of `out` and gives the number of bytes written.
///
/// The tacks have 166 bytes each and are one or two; the flags have no bit but those of the tacks that are there. No byte
/// behind the extension changes, and none at all on an error.
pub fn write(tacks: &[u8], flags: u8, out: &mut [u8]) -> Result<usize, WriteError> {
    written(raw::extension_two_write(tacks, flags, out))
}
