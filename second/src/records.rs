//! The records of a table: a key's, a name's, and the one or two of one name.

use std::iter::once;

use crate::minutes::Minutes;

pub type PublicKey = [u8; 64];

#[derive(Debug, Clone, Copy, PartialEq, Eq)]
pub struct KeySlot(pub(crate) usize);

#[derive(Debug, Clone, Copy, PartialEq, Eq, PartialOrd, Ord)]
pub struct NameSlot(pub(crate) usize);

#[derive(Debug, Clone, PartialEq, Eq)]
pub struct KeyRecord {
    pub key: PublicKey,
    pub floor: u8,
    /// How many name records stand on this key; saves a search when one goes.
    pub(crate) names: usize,
}

#[derive(Debug, Clone, Copy, PartialEq, Eq)]
pub struct NameRecord {
    pub slot: NameSlot,
    pub key_slot: KeySlot,
    pub initial: Minutes,
    pub end: Option<Minutes>,
}

impl NameRecord {
    /// At its end a pin is no longer active.
    pub fn is_active(&self, clock: Minutes) -> bool {
        self.end.is_some_and(|end| clock < end)
    }
}

/// The records of one name in slot order: in edition one there is one, in
/// edition two there may be "two records of a name, with different keys".
#[derive(Debug, Clone, Copy, PartialEq, Eq)]
pub(crate) struct NameRecords {
    first: NameRecord,
    second: Option<NameRecord>,
}

impl NameRecords {
    pub(crate) fn one(record: NameRecord) -> NameRecords {
        NameRecords {
            first: record,
            second: None,
        }
    }

    pub(crate) fn iter(&self) -> impl Iterator<Item = &NameRecord> {
        once(&self.first).chain(&self.second)
    }

    pub(crate) fn iter_mut(&mut self) -> impl Iterator<Item = &mut NameRecord> {
        once(&mut self.first).chain(&mut self.second)
    }

    /// These and another; nothing if that makes three, or two with one key.
    pub(crate) fn with(self, other: NameRecord) -> Option<NameRecords> {
        if self.second.is_some() || self.first.key_slot == other.key_slot {
            return None;
        }
        let (first, second) = if self.first.slot < other.slot {
            (self.first, other)
        } else {
            (other, self.first)
        };
        Some(NameRecords {
            first,
            second: Some(second),
        })
    }

    /// Drops those that are not kept; no if none is left, and then the name has
    /// to go.
    pub(crate) fn retain(&mut self, keep: impl Fn(&NameRecord) -> bool) -> bool {
        let before = *self;
        let mut kept = before.iter().filter(|record| keep(record)).copied();
        let (Some(first), second) = (kept.next(), kept.next()) else {
            return false;
        };
        *self = NameRecords { first, second };
        true
    }
}
