//! The table that a call must leave, by its number, where the number leaves no choice: worked out from the papers once more,
//! without the help of either program.

use crate::area::{self, Area};
use crate::call::{Call, Connection};
use crate::wire::Tack;
use std::borrow::Cow;

/// An error where the table after the call is not the one that its number says. Verdicts and a deletion say none here; what a
/// verdict leaves that records nothing is held in [`disabled`](crate::disabled).
pub fn check(call: &Call, number: u8, before: &[u8], after: &[u8]) -> Result<(), String> {
    let expected = match (number, call) {
        (0..=3, _) => return Ok(()),
        (7, Call::Start(edition)) => Cow::Owned(Area::of_edition(*edition).bytes),
        (23, Call::Judge(connection)) => Cow::Owned(after_expired(before, connection)?),
        _ => Cow::Borrowed(before),
    };
    same_table(number, after, &expected)
}

/// An error where the table after a call with this number is not the expected one.
pub fn same_table(number: u8, after: &[u8], expected: &[u8]) -> Result<(), String> {
    match area::first_difference(after, expected) {
        None => Ok(()),
        Some(at) => Err(format!(
            "{} is {} after {number}, not {}",
            area::place(at),
            after[at],
            expected[at]
        )),
    }
}

/// Document 02, Q-4: the floor of the tack's key is raised. No other byte changes.
fn after_expired(before: &[u8], connection: &Connection) -> Result<Vec<u8>, String> {
    let tack = connection.tack().ok_or("23 came without a tack")?;
    let mut area = Area {
        bytes: before.to_vec(),
    };
    raise_floor(&mut area, &tack);
    Ok(area.bytes)
}

/// Step 1 of judging: the floor of the tack's key, if it is recorded, is the higher of itself and min_generation.
pub fn raise_floor(area: &mut Area, tack: &Tack) {
    if let Some(slot) = area.find_key(&tack.key) {
        let floor = &mut area.key_slot_mut(slot)[1];
        *floor = tack.min_generation.max(*floor);
    }
}

#[cfg(test)]
mod tests {
    use super::*;
    use crate::call::ConnectionTwo;
    use crate::make::generation_3;
    use crate::small_tables::{with_pins_in, LATEST};
    use crate::wire;

    /// Key slots 3 and 9 are used; the floor of slot 9 is 3.
    fn table() -> Area {
        let mut area = with_pins_in(&[(0, 3), (1, 9)]);
        area.key_slot_mut(9)[1] = 3;
        area
    }

    /// An expired tack of the key in slot 9.
    fn tack(min_generation: u8) -> Tack {
        Tack {
            min_generation,
            generation: min_generation,
            expiration: LATEST,
            ..generation_3(table().key(9))
        }
    }

    /// The tack with a break signature of its own key, at a clock after latest.
    fn call(min_generation: u8) -> Call {
        let tack = tack(min_generation);
        let extension = wire::extension(Some(&tack), &[tack.key], 1);
        Call::Judge(Connection::at(LATEST + 1, b"a.b").with(extension))
    }

    #[test]
    fn an_expired_tack_raises_its_floor() {
        let before = table();
        for (min_generation, floor) in [(2, 3), (3, 3), (4, 4), (255, 255)] {
            let mut after = before.clone();
            after.key_slot_mut(9)[1] = floor;
            let call = call(min_generation);
            assert_eq!(check(&call, 23, &before.bytes, &after.bytes), Ok(()));
        }
    }

    #[test]
    fn an_expired_tack_changes_no_other_byte() {
        let (before, call) = (table(), call(4));
        let mut after = before.clone();
        after.key_slot_mut(9)[1] = 4;
        for at in 0..after.bytes.len() {
            after.bytes[at] ^= 1;
            assert!(check(&call, 23, &before.bytes, &after.bytes).is_err());
            after.bytes[at] ^= 1;
        }
    }

    #[test]
    fn a_floor_that_is_not_raised_is_told() {
        let bytes = table().bytes;
        assert_eq!(
            check(&call(5), 23, &bytes, &bytes),
            Err("the floor of key slot 9 (byte 657) is 3 after 23, not 5".to_string())
        );
    }

    #[test]
    fn a_key_without_a_record_gets_none() {
        let mut before = table();
        before.key_slot_mut(9)[8] ^= 0xff;
        assert_eq!(check(&call(5), 23, &before.bytes, &before.bytes), Ok(()));
        let mut after = before.clone();
        after.put_key(0, 5, &tack(5).key);
        assert!(check(&call(5), 23, &before.bytes, &after.bytes).is_err());
    }

    #[test]
    fn no_other_refusal_raises_a_floor() {
        let before = table();
        let mut after = before.clone();
        after.key_slot_mut(9)[1] = 5;
        let extension = wire::extension_two(&[tack(5)], 1);
        let two = Call::JudgeTwo(ConnectionTwo::at(LATEST + 1, b"a.b").with(extension));
        let of_one = (10..=22).chain([27]).map(|number| (call(5), number));
        let of_two = (10..=27).map(|number| (two.clone(), number));
        for (call, number) in of_one.chain(of_two) {
            assert_eq!(check(&call, number, &before.bytes, &before.bytes), Ok(()));
            assert!(check(&call, number, &before.bytes, &after.bytes).is_err());
        }
    }
}
