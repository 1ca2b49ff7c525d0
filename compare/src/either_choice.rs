//! Calls of edition one that must have the same answer and leave the same table with the yes for disabled tacks and without it:
//! all but those in which a disabled tack would get a record, or find no room for it.

use crate::area::Area;
use crate::call::{Call, Connection};
use crate::creation::Creation;
use std::hash::{DefaultHasher, Hash, Hasher};

/// Of so many calls one is made again, so that a comparison takes hardly longer.
const ONE_IN: u64 = 10;

/// The same call with the other choice, if it is one that is made again and the choice may change nothing.
pub fn other(call: &Call, number: u8, before: &[u8]) -> Option<Call> {
    match call {
        Call::Judge(connection)
            if is_in_sample(connection) && changes_nothing(connection, number, before) =>
        {
            Some(Call::Judge(Connection {
                learn_disabled: !connection.learn_disabled,
                ..connection.clone()
            }))
        }
        _ => None,
    }
}

/// By the connection alone, so that the same call is made again wherever it comes.
fn is_in_sample(connection: &Connection) -> bool {
    let mut hasher = DefaultHasher::new();
    connection.hash(&mut hasher);
    hasher.finish() % ONE_IN == 0
}

/// Refusals do not look at the choice, nor does an enabled tack, nor do the steps of judging but 2(ii).
fn changes_nothing(connection: &Connection, number: u8, before: &[u8]) -> bool {
    let (0..=2, false, Some(tack)) = (number, connection.is_enabled(), connection.tack()) else {
        return true;
    };
    // The table of a verdict is sound.
    let before = Area {
        bytes: before.to_vec(),
    };
    Creation::of(&before, connection, &tack.key).is_none()
}

#[cfg(test)]
mod tests {
    use super::*;
    use crate::area::LENGTH;
    use crate::call::{Answer, By};
    use crate::full_table::{full, key, name, ACTIVE, AFTER_ALL, NEW};
    use crate::make::generation_3;
    use crate::wire;

    fn connection(clock: u32, name_number: usize, key_number: usize, activation: u8) -> Connection {
        let tack = generation_3(key(key_number));
        let extension = wire::extension(Some(&tack), &[], activation);
        Connection::at(clock, &name(name_number)).with(extension)
    }

    /// The connection with the yes and without it.
    fn by_second(connection: &Connection, before: &Area) -> [(Answer, Vec<u8>); 2] {
        [true, false].map(|learn_disabled| {
            let call = Call::Judge(Connection {
                learn_disabled,
                ..connection.clone()
            });
            let mut table = before.bytes.clone();
            let answer = call.by(By::Second, &mut table);
            (answer, table)
        })
    }

    /// Of the second program, on a full table: the choice changes something exactly where it may.
    #[test]
    fn the_choice_changes_what_it_may() {
        let (area, mut changed) = (full(), 0);
        for clock in [ACTIVE, AFTER_ALL] {
            for name_number in [0, NEW] {
                for key_number in [0, 1, NEW] {
                    for activation in [0, 1] {
                        let shown = connection(clock, name_number, key_number, activation);
                        let [with, without] = by_second(&shown, &area);
                        let is_same = changes_nothing(&shown, with.0.number, &area.bytes);
                        assert_eq!(with == without, is_same, "{shown:02x?}");
                        changed += u32::from(!is_same);
                    }
                }
            }
        }
        // A new name with each key, at either clock; a recorded one with another key and a new one, after its end.
        assert_eq!(changed, 3 + 3 + 2);
    }

    #[test]
    fn a_refusal_and_a_call_without_a_tack_are_the_same() {
        let shown = connection(AFTER_ALL, NEW, NEW, 0);
        for number in 10..=27 {
            assert!(changes_nothing(&shown, number, &[]));
        }
        let silent = Connection::at(AFTER_ALL, &name(NEW));
        assert!(changes_nothing(&silent, 0, &[0; LENGTH]));
        let breaking = silent.with(wire::extension(None, &[key(0)], 0));
        assert!(changes_nothing(&breaking, 0, &[0; LENGTH]));
    }

    #[test]
    fn about_one_call_in_ten_is_made_again() {
        let enabled = (0..1_000).map(|clock| Call::Judge(connection(clock, 0, 0, 1)));
        let again = enabled.filter_map(|call| other(&call, 0, &[0; LENGTH]));
        let again: Vec<Call> = again.collect();
        assert!((50..=150).contains(&again.len()), "{}", again.len());
        for call in again {
            assert!(matches!(call, Call::Judge(connection) if !connection.learn_disabled));
        }
    }
}
