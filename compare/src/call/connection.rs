//! A connection of edition one, as each program takes it.

use crate::area::Key;
use crate::wire::{self, Tack, HASH};
use tack::raw;
use tack::table::Checks;

#[derive(Debug, Clone, Hash)]
pub struct Connection {
    pub clock: u64,
    pub name: Vec<u8>,
    pub extension_came: bool,
    /// Both programs are to ignore these bytes where no extension came.
    pub extension: Vec<u8>,
    pub hash: Vec<u8>,
    pub handshake_finished: bool,
    pub key_is_point: bool,
    pub signature_correct: bool,
    pub breaks_correct: u8,
    /// The call's explicit yes, by which a record is made of a disabled tack too. It has no recorded form.
    pub learn_disabled: bool,
}

impl Connection {
    /// A finished connection without an extension, which passes every check of the caller. It gives the yes, as `replay` does in
    /// each call, so that nights and stories are judged here as they are replayed; a list of calls chooses anew in each call.
    pub fn at(clock: u32, name: &[u8]) -> Connection {
        Connection {
            clock: u64::from(clock),
            name: name.to_vec(),
            extension_came: false,
            extension: vec![],
            hash: HASH.to_vec(),
            handshake_finished: true,
            key_is_point: true,
            signature_correct: true,
            breaks_correct: 0xff,
            learn_disabled: true,
        }
    }

    /// The same with an extension.
    pub fn with(self, extension: Vec<u8>) -> Connection {
        Connection {
            extension_came: true,
            extension,
            ..self
        }
    }

    /// The tack of a well-formed extension, if one came.
    pub fn tack(&self) -> Option<Tack> {
        wire::tack(self.extension_came.then_some(&self.extension)?)
    }

    /// Whether a well-formed extension came, with activation enabled.
    pub fn is_enabled(&self) -> bool {
        self.extension_came && self.extension.last() == Some(&1)
    }

    /// The keys of a well-formed extension's break signatures, if one came.
    pub fn broken_keys(&self) -> Vec<Key> {
        match self.extension_came {
            true => wire::broken_keys(&self.extension),
            false => vec![],
        }
    }

    pub fn for_proved(&self) -> raw::Connection<'_> {
        raw::Connection {
            clock: self.clock,
            name: &self.name,
            extension_came: self.extension_came,
            extension: &self.extension,
            spki_sha256: &self.hash,
            handshake_finished: self.handshake_finished,
            key_is_point: self.key_is_point,
            signature_correct: self.signature_correct,
            breaks_correct: self.breaks_correct,
            learn_disabled: self.learn_disabled,
        }
    }

    pub fn for_safe_crate(&self) -> tack::table::Connection<'_> {
        let checks = Checks::default()
            .with_handshake_finished(self.handshake_finished)
            .with_key_is_point(self.key_is_point)
            .with_signature_correct(self.signature_correct)
            .with_breaks_correct(self.breaks_correct)
            .with_learn_disabled(self.learn_disabled);
        let connection = tack::table::Connection::new(self.clock, &self.name, &self.hash, checks);
        match self.extension_came {
            true => connection.with_extension(&self.extension),
            false => connection,
        }
    }

    pub fn for_second(&self) -> second::Connection<'_> {
        second::Connection {
            clock: self.clock,
            name: &self.name,
            extension: self.extension_came.then_some(&self.extension[..]),
            spki_sha256: &self.hash,
            handshake_finished: self.handshake_finished,
            key_is_point: self.key_is_point,
            signature_correct: self.signature_correct,
            breaks_correct: self.breaks_correct,
            learn_disabled: self.learn_disabled,
        }
    }
}

#[test]
fn every_program_is_told_the_choice() {
    for learn_disabled in [false, true] {
        let connection = Connection {
            learn_disabled,
            ..Connection::at(1_000, b"a.b")
        };
        assert_eq!(connection.for_proved().learn_disabled, learn_disabled);
        assert_eq!(
            connection.for_safe_crate().checks.learn_disabled,
            learn_disabled
        );
        assert_eq!(connection.for_second().learn_disabled, learn_disabled);
    }
}
