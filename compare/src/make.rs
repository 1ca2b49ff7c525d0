//! Nights of recorded calls, made call by call, so that a night may be longer than the memory.

mod few;
mod full;
mod pins;
mod random;
pub mod stories;
mod without_extensions;

pub use few::few;
pub use full::{full, FILLING};
pub use pins::Pins;
pub use random::random;
pub use without_extensions::without_extensions;

use crate::area::Key;
use crate::call::Connection;
use crate::record;
use crate::wire::{self, Tack};
use std::io::{self, ErrorKind, Write};

/// Writes each call as soon as it is made.
pub fn write(night: impl IntoIterator<Item = Connection>, out: &mut impl Write) -> io::Result<()> {
    for call in night {
        let bytes = record::call(&call).ok_or_else(|| {
            io::Error::new(ErrorKind::InvalidInput, "a call without a recorded form")
        })?;
        out.write_all(&bytes)?;
    }
    Ok(())
}

/// The bytes of a night that is not too long for the memory.
pub fn bytes(night: impl IntoIterator<Item = Connection>) -> io::Result<Vec<u8>> {
    let mut bytes = Vec::new();
    write(night, &mut bytes)?;
    Ok(bytes)
}

/// An extension with one tack of generation 3 that does not expire, activation enabled.
pub fn showing(key: Key) -> Vec<u8> {
    wire::extension(Some(&generation_3(key)), &[], 1)
}

/// A tack of generation 3 that does not expire.
pub fn generation_3(key: Key) -> Tack {
    Tack {
        key,
        min_generation: 3,
        generation: 3,
        expiration: u32::MAX,
    }
}
