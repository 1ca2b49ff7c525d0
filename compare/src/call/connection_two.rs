//! A connection of edition two, as each program takes it.

use crate::wire::HASH;
use tack::raw;

#[derive(Debug, Clone)]
pub struct ConnectionTwo {
    pub clock: u64,
    pub name: Vec<u8>,
    pub extension_came: bool,
    /// Both programs are to ignore these bytes where no extension came.
    pub extension: Vec<u8>,
    pub hash: Vec<u8>,
    pub handshake_finished: bool,
    /// Bit 0 for the first tack, bit 1 for the second; both programs are to ignore the others, and those of absent tacks.
    pub keys_are_points: u8,
    pub signatures_correct: u8,
}

impl ConnectionTwo {
    /// A finished connection without an extension, which passes every check of the caller.
    pub fn at(clock: u32, name: &[u8]) -> ConnectionTwo {
        ConnectionTwo {
            clock: u64::from(clock),
            name: name.to_vec(),
            extension_came: false,
            extension: vec![],
            hash: HASH.to_vec(),
            handshake_finished: true,
            keys_are_points: 0b11,
            signatures_correct: 0b11,
        }
    }

    /// The same with an extension.
    pub fn with(self, extension: Vec<u8>) -> ConnectionTwo {
        ConnectionTwo {
            extension_came: true,
            extension,
            ..self
        }
    }

    pub fn for_proved(&self) -> raw::ConnectionTwo<'_> {
        raw::ConnectionTwo {
            clock: self.clock,
            name: &self.name,
            extension_came: self.extension_came,
            extension: &self.extension,
            spki_sha256: &self.hash,
            handshake_finished: self.handshake_finished,
            keys_are_points: self.keys_are_points,
            signatures_correct: self.signatures_correct,
        }
    }

    pub fn for_second(&self) -> second::ConnectionTwo<'_> {
        second::ConnectionTwo {
            clock: self.clock,
            name: &self.name,
            extension: self.extension_came.then_some(&self.extension[..]),
            spki_sha256: &self.hash,
            handshake_finished: self.handshake_finished,
            keys_are_points: self.keys_are_points,
            signatures_correct: self.signatures_correct,
        }
    }
}
