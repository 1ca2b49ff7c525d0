//! What the gateway knows of a connection.

use super::{Checks, ChecksTwo};
use crate::raw;

/// One finished connection of edition one, as the gateway and its verifier saw it.
///
/// It is made by [`new`](Connection::new) and the functions beside it. The fields may be read and set; others may come.
#[derive(Debug, Clone, Copy)]
#[non_exhaustive]
pub struct Connection<'a> {
    /// The time in whole minutes since 1970, 4,294,924,095 at most: [`minutes::since_1970`](crate::minutes::since_1970).
    pub clock: u64,
    /// The server's host name, in letters of either case: A-Z is taken as a-z.
    pub name: &'a [u8],
    /// The TACK extension's bytes, if one came.
    pub extension: Option<&'a [u8]>,
    /// The SHA-256 of the server's SubjectPublicKeyInfo. One that is not 32 bytes long is unequal to every target hash.
    pub spki_sha256: &'a [u8],
    /// What the caller has verified, and whether a disabled server gets a pin.
    pub checks: Checks,
}

/// One finished connection of edition two, as the gateway and its verifier saw it.
///
/// It is made by [`new`](ConnectionTwo::new) and the functions beside it. The fields may be read and set; others may come.
#[derive(Debug, Clone, Copy)]
#[non_exhaustive]
pub struct ConnectionTwo<'a> {
    /// The time in whole minutes since 1970, 4,294,924,095 at most: [`minutes::since_1970`](crate::minutes::since_1970).
    pub clock: u64,
    /// The server's host name, in letters of either case: A-Z is taken as a-z.
    pub name: &'a [u8],
    /// The TACK extension's bytes, if one came.
    pub extension: Option<&'a [u8]>,
    /// The SHA-256 of the server's SubjectPublicKeyInfo. One that is not 32 bytes long is unequal to every target hash.
    pub spki_sha256: &'a [u8],
    /// What the caller has verified.
    pub checks: ChecksTwo,
}

// Both editions have the same fields, but each its own checks.
macro_rules! made {
    ($connection:ident, $checks:ident) => {
        impl<'a> $connection<'a> {
            /// A connection in which no extension came.
            pub fn new(
                clock: u64,
                name: &'a [u8],
                spki_sha256: &'a [u8],
                checks: $checks,
            ) -> $connection<'a> {
                $connection {
                    clock,
                    name,
                    extension: None,
                    spki_sha256,
                    checks,
                }
            }

            /// The same with an extension of these bytes.
            pub fn with_extension(self, extension: &'a [u8]) -> $connection<'a> {
                $connection {
                    extension: Some(extension),
                    ..self
                }
            }

            /// The same without an extension.
            pub fn without_extension(self) -> $connection<'a> {
                $connection {
                    extension: None,
                    ..self
                }
            }

            /// The same at another time.
            pub fn with_clock(self, clock: u64) -> $connection<'a> {
                $connection { clock, ..self }
            }

            /// The same with another server name.
            pub fn with_name(self, name: &'a [u8]) -> $connection<'a> {
                $connection { name, ..self }
            }

            /// The same with another hash of the server's SubjectPublicKeyInfo.
            pub fn with_spki_sha256(self, spki_sha256: &'a [u8]) -> $connection<'a> {
                $connection {
                    spki_sha256,
                    ..self
                }
            }

            /// The same with other answers of the caller.
            pub fn with_checks(self, checks: $checks) -> $connection<'a> {
                $connection { checks, ..self }
            }
        }
    };
}

made!(Connection, Checks);
made!(ConnectionTwo, ChecksTwo);

impl<'a> Connection<'a> {
    /// As the C interface takes it.
    pub(crate) fn arguments(&self) -> raw::Connection<'a> {
        raw::Connection {
            clock: self.clock,
            name: self.name,
            extension_came: self.extension.is_some(),
            extension: self.extension.unwrap_or(&[]),
            spki_sha256: self.spki_sha256,
            handshake_finished: self.checks.handshake_finished,
            key_is_point: self.checks.key_is_point,
            signature_correct: self.checks.signature_correct,
            breaks_correct: self.checks.breaks_correct,
            learn_disabled: self.checks.learn_disabled,
        }
    }
}

impl<'a> ConnectionTwo<'a> {
    /// As the C interface takes it.
    pub(crate) fn arguments(&self) -> raw::ConnectionTwo<'a> {
        raw::ConnectionTwo {
            clock: self.clock,
            name: self.name,
            extension_came: self.extension.is_some(),
            extension: self.extension.unwrap_or(&[]),
            spki_sha256: self.spki_sha256,
            handshake_finished: self.checks.handshake_finished,
            keys_are_points: bits(self.checks.keys_are_points),
            signatures_correct: bits(self.checks.signatures_correct),
        }
    }
}

/// Bit 0 is the answer about the first tack, bit 1 about the second.
fn bits([first, second]: [bool; 2]) -> u8 {
    u8::from(first) | u8::from(second) << 1
}
