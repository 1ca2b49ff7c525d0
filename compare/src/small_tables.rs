//! Small sound tables: a pin in each of some slots.

use crate::area::{Area, Record};

/// The latest clock of these tables.
pub const LATEST: u32 = 2_000_000;

/// A pin in each of the name slots, on a key of its own in the key slot that goes with it. No two pins have a name, a floor or
/// a time in common, so that an answer tells them apart.
pub fn with_pins_in(slots: &[(usize, usize)]) -> Area {
    let mut area = Area::empty();
    area.set_latest(LATEST);
    for (index, &(name_slot, key_slot)) in slots.iter().enumerate() {
        let (byte, minutes) = (index as u8, index as u32);
        area.put_key(key_slot, byte, &[byte; 64]);
        let record = Record {
            key_slot,
            initial: 1_000_000 + minutes,
            end: Some(1_500_000 + 2 * minutes),
        };
        let name = format!("pin-{index}.example");
        area.put_pin(name_slot, record, name.as_bytes());
    }
    area
}

#[test]
fn the_tables_are_sound() {
    for slots in [&[][..], &[(127, 63)], &[(0, 1), (5, 63), (127, 0)]] {
        assert!(second::is_sound(&with_pins_in(slots).bytes));
    }
}
