//! A connection of edition two, what it showed, and what became of it.

use crate::area::{Area, Key, Pin};
use crate::call::{Answer, ConnectionTwo};
use tack::extension_two::Extension;

/// A call that a table of edition two judged.
pub struct Judged<'a> {
    pub before: &'a Area,
    pub connection: &'a ConnectionTwo,
    /// In order; none where no extension came, or a malformed one.
    pub tacks: Vec<Shown>,
    pub answer: &'a Answer,
    pub after: &'a Area,
}

/// A tack of the connection.
pub struct Shown {
    pub key: Key,
    pub min_generation: u8,
    pub generation: u8,
    pub expiration: u32,
    pub target_hash: [u8; 32],
    pub enabled: bool,
}

impl Shown {
    fn new(tack: tack::extension::Tack, enabled: bool) -> Shown {
        Shown {
            key: *tack.public_key(),
            min_generation: tack.min_generation(),
            generation: tack.generation(),
            expiration: tack.expiration(),
            target_hash: *tack.target_hash(),
            enabled,
        }
    }
}

impl<'a> Judged<'a> {
    pub fn new(
        before: &'a Area,
        connection: &'a ConnectionTwo,
        answer: &'a Answer,
        after: &'a Area,
    ) -> Judged<'a> {
        Judged {
            before,
            connection,
            tacks: tacks(connection).unwrap_or_default(),
            answer,
            after,
        }
    }

    pub fn has_verdict(&self) -> bool {
        self.answer.number <= 2
    }

    pub fn is_contradicted(&self) -> bool {
        self.answer.number == 2
    }

    /// The tack that shows the key.
    pub fn tack_of(&self, key: &Key) -> Option<&Shown> {
        self.tacks.iter().find(|tack| tack.key == *key)
    }

    pub fn pins_before(&self) -> Vec<Pin> {
        self.before.pins_of(&self.connection.name)
    }

    pub fn pins_after(&self) -> Vec<Pin> {
        self.after.pins_of(&self.connection.name)
    }
}

fn tacks(connection: &ConnectionTwo) -> Option<Vec<Shown>> {
    let bytes = connection.extension_came.then_some(&connection.extension)?;
    let extension = Extension::read(bytes).ok()?;
    let first = Shown::new(extension.first(), extension.first_enabled());
    let second = extension.second();
    let second = second.map(|tack| Shown::new(tack, extension.second_enabled()));
    Some([first].into_iter().chain(second).collect())
}
