//! A name field: the length byte of a name slot, and the 256 bytes that a name stands in.

use crate::area::Area;

/// The bytes of a field besides the length byte; the last three are no name's.
pub const BYTES: usize = 256;

pub struct Field {
    pub length: u8,
    pub bytes: [u8; BYTES],
}

impl Field {
    /// A name of at most 255 bytes, with its length and zeros behind it.
    pub fn of(name: &[u8]) -> Field {
        let mut bytes = [0; BYTES];
        bytes[..name.len()].copy_from_slice(name);
        Field {
            length: name.len() as u8,
            bytes,
        }
    }

    /// The same with these bytes from a place on.
    pub fn with(mut self, place: usize, bytes: &[u8]) -> Field {
        self.bytes[place..][..bytes.len()].copy_from_slice(bytes);
        self
    }

    pub fn put(&self, area: &mut Area, slot: usize) {
        let slot = area.name_slot_mut(slot);
        slot[2] = self.length;
        slot[16..].copy_from_slice(&self.bytes);
    }
}
