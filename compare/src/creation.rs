//! What step 2(ii) of judging comes to in edition one, where a record is wanted: worked out from the papers, without the help of
//! either program.

use crate::area::{Area, Key, Pin, KEY_SLOTS, NAME_SLOTS};
use crate::call::Connection;

/// What a tack gets that is not of the name's own record, which is not active.
#[derive(Debug, Clone, Copy, PartialEq, Eq)]
pub enum Creation {
    /// A record, the name having none.
    New,
    /// A record in place of the name's inactive one.
    InPlace,
    /// No room, the name having no record: all name slots are used, or all key slots and the key has no record either.
    NoRoomForNew,
    /// No room, the name having a record: the key has none, all key slots are used, and the old key stays with another name.
    NoRoomInPlace,
}

impl Creation {
    /// By the table before the call; nothing where the name's record is active or has the key.
    pub fn of(before: &Area, connection: &Connection, key: &Key) -> Option<Creation> {
        match before.pins_of(&connection.name).first() {
            None => Some(Creation::of_new_name(before, key)),
            Some(pin) if pin.key == *key || pin.record.is_active(connection.clock) => None,
            Some(pin) => Some(Creation::in_place(before, pin, key)),
        }
    }

    pub fn has_room(self) -> bool {
        matches!(self, Creation::New | Creation::InPlace)
    }

    fn of_new_name(before: &Area, key: &Key) -> Creation {
        match before.used_names().len() < NAME_SLOTS && has_key_slot(before, key) {
            true => Creation::New,
            false => Creation::NoRoomForNew,
        }
    }

    /// Key slots are counted after the removal of the old record's key.
    fn in_place(before: &Area, old: &Pin, key: &Key) -> Creation {
        let on_old_key = |&slot: &usize| before.record(slot).key_slot == old.record.key_slot;
        let names = before.used_names().into_iter().filter(on_old_key).count();
        match names == 1 || has_key_slot(before, key) {
            true => Creation::InPlace,
            false => Creation::NoRoomInPlace,
        }
    }
}

/// Whether the key has a record, or a slot is free for one.
fn has_key_slot(before: &Area, key: &Key) -> bool {
    before.find_key(key).is_some() || before.used_keys().len() < KEY_SLOTS
}

#[cfg(test)]
mod tests {
    use super::*;
    use crate::full_table::{delete, full, key, name, AFTER_ALL, NEW};

    fn of(area: &Area, clock: u32, name_number: usize, key_number: usize) -> Option<Creation> {
        let connection = Connection::at(clock, &name(name_number));
        Creation::of(area, &connection, &key(key_number))
    }

    #[test]
    fn a_full_table_has_room_for_recorded_names_alone() {
        let mut area = full();
        let of = |area: &Area, name, key| of(area, AFTER_ALL, name, key);
        assert_eq!(of(&area, NEW, 0), Some(Creation::NoRoomForNew));
        assert_eq!(of(&area, NEW, NEW), Some(Creation::NoRoomForNew));
        assert_eq!(of(&area, 0, 1), Some(Creation::InPlace));
        assert_eq!(of(&area, 0, NEW), Some(Creation::NoRoomInPlace));
        delete(&mut area, 64);
        // Name 0 is now alone on its key, and one name slot is free, but no key slot.
        assert_eq!(of(&area, 0, NEW), Some(Creation::InPlace));
        assert_eq!(of(&area, NEW, 0), Some(Creation::New));
        assert_eq!(of(&area, NEW, NEW), Some(Creation::NoRoomForNew));
        delete(&mut area, 0);
        // Its key has gone with it.
        assert_eq!(of(&area, NEW, NEW), Some(Creation::New));
        assert_eq!(of(&area, 1, NEW), Some(Creation::InPlace));
    }

    #[test]
    fn an_active_record_and_one_with_the_key_stay() {
        let area = full();
        assert_eq!(of(&area, AFTER_ALL, 0, 0), None);
        let end = area.record(0).end.expect("it is activated");
        assert_eq!(of(&area, end - 1, 0, 1), None);
        assert_eq!(of(&area, end, 0, 1), Some(Creation::InPlace));
    }
}
