//! The connection that the tests of the table begin with.

use tack::extension;
use tack::table::{Checks, Connection};

pub const HASH: [u8; 32] = [0x77; 32];

/// A tack of one key and a break signature of another, activation enabled.
pub fn shown(min_generation: u8, generation: u8, expiration: u32) -> Vec<u8> {
    let generations = [min_generation, generation];
    let expiration = expiration.to_be_bytes();
    let parts: [&[u8]; 5] = [&[0x11; 64], &generations, &expiration, &HASH, &[0x55; 64]];
    let mut bytes = vec![0; 298];
    let written = extension::write(&parts.concat(), &[0x22; 128], true, &mut bytes);
    assert_eq!(written, Ok(298));
    bytes
}

/// A connection that passes at 1000 and makes a pin with floor 3.
pub fn good(extension: &[u8]) -> Connection<'_> {
    let checks = Checks::all_passed().with_breaks_correct(1);
    Connection::new(1000, b"a.b", &HASH, checks).with_extension(extension)
}
