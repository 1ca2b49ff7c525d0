//! Calls of edition one that were answered 23, and what came of the floors that they raised. That they change nothing else is
//! held of every call, in [`kept`](crate::kept).

use crate::area::{Area, Key};
use crate::call::{Answer, Call, Connection};
use crate::kind_counts::{counted_kinds, KindCounts};
use crate::wire::Tack;
use std::cmp::Ordering;
use std::collections::BTreeMap;

counted_kinds! {
    /// An expired tack, by its min_generation and the floor of its key.
    ByFloor, "calls answered 23";
    Higher, "min_generation above the floor";
    Equal, "min_generation at the floor";
    Lower, "min_generation below the floor";
    NoRecord, "a key without a record";
}

counted_kinds! {
    /// What a call answered 23 left as it was, where a verdict may change it.
    Left, "left by calls answered 23";
    Latest, "latest, the clock being after it";
    OwnRecord, "the name's record, its key shown with activation enabled";
    OtherRecord, "the name's inactive record, another key being shown";
    NoName, "a name without a record";
    OwnKey, "the tack's own key record, by a break signature of the key";
    OtherKey, "another key record, by a break signature of its key";
}

counted_kinds! {
    /// A floor that a 23 raised, and calls after it in the list that showed the key.
    Raised, "floors raised by a 23";
    Floor, "raised";
    Revoked, "later a generation that no verdict revoked: 22";
    Good, "later a generation that is not revoked: a verdict";
}

/// What the lists have met so far.
#[derive(Default)]
pub struct Expired {
    by_floor: KindCounts<ByFloor>,
    left: KindCounts<Left>,
    raised: KindCounts<Raised>,
    /// The keys of this list whose floor a 23 raised, each with the floor that verdicts alone would have given it.
    by_verdicts: BTreeMap<Key, u8>,
}

impl Expired {
    /// A call of a list. An error where a verdict was given to a generation that a 23 revoked.
    pub fn add(
        &mut self,
        before: &Area,
        call: &Call,
        answer: &Answer,
        after: &Area,
    ) -> Result<(), String> {
        if let Call::Judge(connection) = call {
            // Every number below stands behind the refusal of a malformed extension.
            match (answer.number, connection.tack()) {
                (0..=2, Some(tack)) => self.add_verdict(before, &tack)?,
                (22, Some(tack)) => self.add_revoked(&tack),
                (23, Some(tack)) => {
                    self.add_expired(before, connection, &tack);
                    self.add_raised(before, &tack.key, after);
                }
                _ => {}
            }
        }
        self.forget(after);
        Ok(())
    }

    fn add_expired(&mut self, before: &Area, connection: &Connection, tack: &Tack) {
        let floor = before.floor(&tack.key);
        self.by_floor
            .add(match floor.map(|floor| tack.min_generation.cmp(&floor)) {
                Some(Ordering::Greater) => ByFloor::Higher,
                Some(Ordering::Equal) => ByFloor::Equal,
                Some(Ordering::Less) => ByFloor::Lower,
                None => ByFloor::NoRecord,
            });
        if connection.clock > u64::from(before.latest()) {
            self.left.add(Left::Latest);
        }
        if let Some(left) = record_left(before, connection, &tack.key) {
            self.left.add(left);
        }
        self.add_breaks(before, connection, &tack.key);
    }

    fn add_breaks(&mut self, before: &Area, connection: &Connection, own: &Key) {
        let mut broken = connection.broken_keys();
        broken.retain(|key| before.find_key(key).is_some());
        if broken.contains(own) {
            self.left.add(Left::OwnKey);
        }
        if broken.iter().any(|key| key != own) {
            self.left.add(Left::OtherKey);
        }
    }

    fn add_raised(&mut self, before: &Area, key: &Key, after: &Area) {
        match (before.floor(key), after.floor(key)) {
            (Some(floor), Some(raised)) if floor < raised => {
                self.raised.add(Raised::Floor);
                self.by_verdicts.entry(*key).or_insert(floor);
            }
            _ => {}
        }
    }

    /// A generation that is refused now and was not before a 23.
    fn add_revoked(&mut self, tack: &Tack) {
        let by_verdicts = self.by_verdicts.get(&tack.key);
        if by_verdicts.is_some_and(|floor| *floor <= tack.generation) {
            self.raised.add(Raised::Revoked);
        }
    }

    fn add_verdict(&mut self, before: &Area, tack: &Tack) -> Result<(), String> {
        let Some(by_verdicts) = self.by_verdicts.get_mut(&tack.key) else {
            return Ok(());
        };
        let floor = before.floor(&tack.key).unwrap_or(0);
        if tack.generation < floor {
            return Err(format!(
                "a verdict came below the floor {floor}, which a 23 raised"
            ));
        }
        self.raised.add(Raised::Good);
        *by_verdicts = tack.min_generation.max(*by_verdicts);
        Ok(())
    }

    /// A key that lost its record, and one whose floor a verdict would have raised as far.
    fn forget(&mut self, after: &Area) {
        self.by_verdicts.retain(|key, by_verdicts| {
            let floor = after.floor(key);
            floor.is_some_and(|floor| *by_verdicts < floor)
        });
    }

    pub fn end_list(&mut self) {
        self.by_verdicts.clear();
    }

    /// The verdict: every kind came.
    pub fn report(&self) -> Result<(), String> {
        self.by_floor.report()?;
        self.left.report()?;
        self.raised.report()
    }
}

/// By step 2 of judging.
fn record_left(before: &Area, connection: &Connection, key: &Key) -> Option<Left> {
    let Some(slot) = before.find_name(&connection.name) else {
        return Some(Left::NoName);
    };
    let record = before.record(slot);
    match before.key(record.key_slot) == *key {
        true if connection.is_enabled() => Some(Left::OwnRecord),
        false if !record.is_active(connection.clock) => Some(Left::OtherRecord),
        _ => None,
    }
}

#[cfg(test)]
mod tests {
    use super::*;
    use crate::kind_counts::Kind;
    use crate::make::generation_3;
    use crate::small_tables::{with_pins_in, LATEST};
    use crate::wire;
    use tack::table::Edition;

    /// One key is recorded, with this floor.
    fn table(floor: u8) -> Area {
        let mut area = with_pins_in(&[(0, 0)]);
        area.key_slot_mut(0)[1] = floor;
        area
    }

    /// The key is shown with min_generation and generation; the answer; the floor before and after.
    fn show(
        met: &mut Expired,
        shown: (u8, u8),
        number: u8,
        floors: (u8, u8),
    ) -> Result<(), String> {
        let [before, after] = [floors.0, floors.1].map(table);
        let tack = Tack {
            min_generation: shown.0,
            generation: shown.1,
            ..generation_3(before.key(0))
        };
        let extension = wire::extension(Some(&tack), &[], 1);
        let call = Call::Judge(Connection::at(LATEST, b"pin-0.example").with(extension));
        let answer = Answer {
            number,
            ..Answer::default()
        };
        met.add(&before, &call, &answer, &after)
    }

    /// A 23 has raised the floor from 3 to 5.
    fn after_23() -> Expired {
        let mut met = Expired::default();
        assert_eq!(show(&mut met, (5, 5), 23, (3, 5)), Ok(()));
        met
    }

    /// What has not come of raised floors.
    fn never(kinds: &[Raised]) -> Result<(), String> {
        let never: Vec<&str> = kinds
            .iter()
            .map(|kind| Raised::SAYS[kind.number()])
            .collect();
        Err(format!("{} that never came: {never:?}", Raised::WHAT))
    }

    #[test]
    fn a_generation_that_a_23_revoked_is_counted() {
        let mut met = after_23();
        assert_eq!(show(&mut met, (2, 2), 22, (5, 5)), Ok(()));
        assert_eq!(met.raised.report(), never(&[Raised::Revoked, Raised::Good]));
        assert_eq!(show(&mut met, (3, 4), 22, (5, 5)), Ok(()));
        assert_eq!(met.raised.report(), never(&[Raised::Good]));
        assert_eq!(show(&mut met, (3, 5), 1, (5, 5)), Ok(()));
        assert_eq!(met.raised.report(), Ok(()));
    }

    #[test]
    fn a_generation_that_a_verdict_revoked_too_is_not_counted() {
        let mut met = after_23();
        assert_eq!(show(&mut met, (5, 5), 1, (5, 5)), Ok(()));
        assert_eq!(show(&mut met, (3, 4), 22, (5, 5)), Ok(()));
        assert_eq!(met.raised.report(), never(&[Raised::Revoked]));
    }

    #[test]
    fn a_record_that_went_and_came_back_is_another() {
        let mut met = after_23();
        let (start, started) = (Call::Start(Edition::One), Area::empty());
        let added = met.add(&table(5), &start, &Answer::default(), &started);
        assert_eq!(added, Ok(()));
        assert_eq!(show(&mut met, (3, 4), 22, (5, 5)), Ok(()));
        assert_eq!(met.raised.report(), never(&[Raised::Revoked, Raised::Good]));
    }

    #[test]
    fn a_verdict_below_the_floor_is_told() {
        let problem = "a verdict came below the floor 5, which a 23 raised".to_string();
        assert_eq!(show(&mut after_23(), (3, 4), 1, (5, 5)), Err(problem));
    }
}
