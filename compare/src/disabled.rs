//! The table that a verdict of edition one must leave where no record may be made or extended: where no tack came, or a disabled
//! one without the call's yes. Worked out from the papers (document 02, Q-7) once more, without the help of either program.

use crate::area::{Area, Key};
use crate::call::{Answer, Call, Connection};
use crate::kept;

/// An error where such a call said 'no room', or left another table than the one without step 2 of judging.
pub fn check(call: &Call, answer: &Answer, before: &[u8], after: &[u8]) -> Result<(), String> {
    match (answer.number, call) {
        (0..=2, Call::Judge(connection)) if !has_step_2(connection) => match answer.no_room {
            true => Err("there is no room, where no record is wanted".to_string()),
            false => kept::same_table(answer.number, after, &without_step_2(before, connection))
                .map_err(|problem| format!("{problem}, where no record is wanted")),
        },
        _ => Ok(()),
    }
}

/// Whether a record may be made or extended.
fn has_step_2(connection: &Connection) -> bool {
    connection.tack().is_some() && (connection.is_enabled() || connection.learn_disabled)
}

/// The floor of the tack's key is raised, broken keys go, latest becomes the clock. No other byte changes, and so none of a name
/// slot whose key stays.
fn without_step_2(before: &[u8], connection: &Connection) -> Vec<u8> {
    let mut area = Area {
        bytes: before.to_vec(),
    };
    if let Some(tack) = connection.tack() {
        kept::raise_floor(&mut area, &tack);
    }
    for key in connection.broken_keys() {
        remove_key(&mut area, &key);
    }
    // A clock with a verdict has 32 bits.
    area.set_latest(connection.clock as u32);
    area.bytes
}

/// Step 3 of judging: a key record that a break signature names goes, with all its names.
fn remove_key(area: &mut Area, key: &Key) {
    let Some(key_slot) = area.find_key(key) else {
        return;
    };
    for slot in area.used_names() {
        if area.record(slot).key_slot == key_slot {
            area.name_slot_mut(slot).fill(0);
        }
    }
    area.key_slot_mut(key_slot).fill(0);
}

#[cfg(test)]
mod tests {
    use super::*;
    use crate::call::By;
    use crate::make::generation_3;
    use crate::small_tables::{with_pins_in, LATEST};
    use crate::wire;

    const CLOCK: u32 = LATEST + 1;

    /// Key slots 3 and 9 are used, slot 9 by two names; all pins have ended.
    fn table() -> Area {
        let mut area = with_pins_in(&[(0, 3), (1, 9)]);
        let record = area.record(1);
        area.put_pin(7, record, b"other.example");
        area
    }

    /// The name of slot 1, or one without a record.
    const NAMES: [&[u8]; 2] = [b"Pin-1.example", b"new.example"];

    /// A tack of this key with a break signature of that one, without the yes.
    fn showing(name: &[u8], key: Key, broken: Option<Key>, activation: u8) -> Connection {
        let broken: Vec<Key> = broken.into_iter().collect();
        let extension = wire::extension(Some(&generation_3(key)), &broken, activation);
        Connection {
            learn_disabled: false,
            ..Connection::at(CLOCK, name).with(extension)
        }
    }

    /// Disabled tacks of the name's own key, of another and of a new one, with a break signature of either recorded key; break
    /// signatures alone; no extension.
    fn without_records() -> Vec<Call> {
        let keys = [table().key(3), table().key(9), [0xee; 64]];
        let breaks = [None, Some(keys[0]), Some(keys[1])];
        let mut connections = vec![];
        for name in NAMES {
            connections.push(Connection::at(CLOCK, name));
            for broken in breaks {
                connections.extend(keys.map(|key| showing(name, key, broken, 0)));
                let alone: Vec<Key> = broken.into_iter().collect();
                let alone = wire::extension(None, &alone, 1);
                connections.push(Connection::at(CLOCK, name).with(alone));
            }
        }
        connections.into_iter().map(Call::Judge).collect()
    }

    /// The call by the second program.
    fn by_second(call: &Call, before: &Area) -> (Answer, Area) {
        let mut after = before.clone();
        let answer = call.by(By::Second, &mut after.bytes);
        (answer, after)
    }

    #[test]
    fn what_the_other_steps_leave_is_held() {
        let before = table();
        for call in without_records() {
            let (answer, after) = by_second(&call, &before);
            assert_eq!(answer.number, 0);
            assert_eq!(check(&call, &answer, &before.bytes, &after.bytes), Ok(()));
        }
    }

    #[test]
    fn no_other_byte_may_change() {
        let before = table();
        let call = Call::Judge(showing(NAMES[0], before.key(9), Some(before.key(3)), 0));
        let (answer, mut after) = by_second(&call, &before);
        for at in 0..after.bytes.len() {
            after.bytes[at] ^= 1;
            assert!(check(&call, &answer, &before.bytes, &after.bytes).is_err());
            after.bytes[at] ^= 1;
        }
    }

    #[test]
    fn a_broken_key_takes_its_names_with_it() {
        let (mut before, key) = (table(), table().key(9));
        let call = Call::Judge(showing(NAMES[1], [0xee; 64], Some(key), 0));
        let (answer, after) = by_second(&call, &before);
        assert_eq!(check(&call, &answer, &before.bytes, &after.bytes), Ok(()));
        assert_eq!((after.used_names(), after.used_keys()), (vec![0], vec![3]));
        // Both would stay on another key.
        before.key_slot_mut(9)[8] ^= 0xff;
        assert!(check(&call, &answer, &before.bytes, &after.bytes).is_err());
    }

    #[test]
    fn a_record_that_the_default_makes_or_replaces_is_told() {
        let before = table();
        for name in NAMES {
            let disabled = showing(name, [0xee; 64], None, 0);
            let with_yes = Call::Judge(Connection {
                learn_disabled: true,
                ..disabled.clone()
            });
            let (answer, after) = by_second(&with_yes, &before);
            let told = check(&Call::Judge(disabled), &answer, &before.bytes, &after.bytes);
            assert_eq!(
                told,
                Err("byte 8 is 1 after 0, not 0, where no record is wanted".to_string()),
                "the new key stands in slot 0"
            );
            assert_eq!(
                check(&with_yes, &answer, &before.bytes, &after.bytes),
                Ok(())
            );
        }
    }

    #[test]
    fn no_room_is_told() {
        let before = table();
        let call = Call::Judge(showing(NAMES[1], [0xee; 64], None, 0));
        let (answer, after) = by_second(&call, &before);
        let no_room = Answer {
            no_room: true,
            ..answer
        };
        assert!(check(&call, &no_room, &before.bytes, &after.bytes).is_err());
    }

    #[test]
    fn what_else_step_2_may_do_is_left_to_the_programs() {
        let before = table();
        for activation in [0, 1] {
            for learn_disabled in [false, true] {
                let connection = Connection {
                    learn_disabled,
                    ..showing(NAMES[1], [0xee; 64], None, activation)
                };
                let verdict = Answer::default();
                let call = Call::Judge(connection);
                let is_held = check(&call, &verdict, &before.bytes, &before.bytes).is_err();
                assert_eq!(is_held, activation == 0 && !learn_disabled);
                let refusal = Answer {
                    number: 20,
                    ..verdict
                };
                assert_eq!(check(&call, &refusal, &before.bytes, &before.bytes), Ok(()));
            }
        }
    }

    #[test]
    fn without_a_tack_either_choice_is_held() {
        let before = table();
        for learn_disabled in [false, true] {
            for activation in [0, 1] {
                let extension = wire::extension(None, &[], activation);
                let call = Call::Judge(Connection {
                    learn_disabled,
                    ..Connection::at(CLOCK, NAMES[1]).with(extension)
                });
                // Latest was to become the clock.
                let told = check(&call, &Answer::default(), &before.bytes, &before.bytes);
                assert!(told.is_err());
            }
        }
    }
}
