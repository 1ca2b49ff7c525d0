//! Records that calls of edition one made or did not make, by the activation of their tacks and the calls' own choice. What a
//! disabled tack leaves without the yes is held of every call, in [`disabled`](crate::disabled).

use crate::area::{Area, Key, Pin, LONGEST};
use crate::call::{Answer, Call, Connection};
use crate::creation::Creation;
use crate::kind_counts::{counted_kinds, KindCounts};
use crate::spelling;
use std::collections::BTreeMap;

counted_kinds! {
    /// A record that was made, by what the name had before.
    Made, "records made in edition one";
    NewEnabledWithout, "a new name, enabled, without the yes";
    NewEnabledWith, "a new name, enabled, with the yes";
    NewDisabledWith, "a new name, disabled, with the yes";
    InPlaceEnabledWithout, "in place of an inactive one, enabled, without the yes";
    InPlaceEnabledWith, "in place of an inactive one, enabled, with the yes";
    InPlaceDisabledWith, "in place of an inactive one, disabled, with the yes";
}

counted_kinds! {
    /// 'No room', said of a record that was wanted.
    NoRoom, "no room in edition one";
    EnabledWithout, "enabled, without the yes";
    EnabledWith, "enabled, with the yes";
    DisabledWith, "disabled, with the yes";
}

counted_kinds! {
    /// What a disabled tack left as it was, since the call did not give the yes.
    NotMade, "left by a disabled tack without the yes";
    New, "a name without a record";
    NoRoomForNew, "a name without a record; with the yes: no room";
    InPlace, "an inactive record of another key";
    NoRoomInPlace, "an inactive record of another key; with the yes: no room";
}

counted_kinds! {
    /// A record that a disabled tack made, by a later call of the list that extended it from its making on.
    Extended, "records of a disabled tack, extended by an enabled one";
    Without, "without the yes";
    With, "with the yes";
}

/// Why a record is wanted.
#[derive(Debug, Clone, Copy)]
enum Wanted {
    EnabledWithout,
    EnabledWith,
    DisabledWith,
}

impl Wanted {
    fn by(connection: &Connection) -> Option<Wanted> {
        match (connection.is_enabled(), connection.learn_disabled) {
            (true, false) => Some(Wanted::EnabledWithout),
            (true, true) => Some(Wanted::EnabledWith),
            (false, true) => Some(Wanted::DisabledWith),
            (false, false) => None,
        }
    }
}

/// A call with a verdict, and the key of its tack.
struct Shown<'a> {
    before: &'a Area,
    connection: &'a Connection,
    key: Key,
    answer: &'a Answer,
    after: &'a Area,
}

impl Shown<'_> {
    fn name(&self) -> Vec<u8> {
        spelling::small(&self.connection.name)
    }

    /// The name's record before the call or after it.
    fn pin(&self, area: &Area) -> Option<Pin> {
        area.pins_of(&self.connection.name).first().copied()
    }

    /// Whether the name's record after the call is a new one with the tack's key.
    fn has_made(&self) -> bool {
        self.pin(self.after).is_some_and(|pin| {
            let is_new = u64::from(pin.record.initial) == self.connection.clock;
            pin.key == self.key && is_new && pin.record.end.is_none()
        })
    }

    /// Whether step 2(i) of judging extends the name's record.
    fn extends(&self) -> bool {
        let own = self.pin(self.before).filter(|pin| pin.key == self.key);
        self.connection.is_enabled() && own.is_some()
    }
}

/// What the lists have met so far.
#[derive(Default)]
pub struct Disabled {
    made: KindCounts<Made>,
    no_room: KindCounts<NoRoom>,
    not_made: KindCounts<NotMade>,
    extended: KindCounts<Extended>,
    /// The names of this list whose last record was made of a disabled tack, each with that call's clock.
    of_disabled: BTreeMap<Vec<u8>, u64>,
}

impl Disabled {
    /// A call of a list. An error where a wanted record was not made although there was room, or 'no room' was not said; or where
    /// a record of a disabled tack was not extended from its making on.
    pub fn add(
        &mut self,
        before: &Area,
        call: &Call,
        answer: &Answer,
        after: &Area,
    ) -> Result<(), String> {
        let Call::Judge(connection) = call else {
            return Ok(());
        };
        match (answer.number, connection.tack()) {
            // A record on a key that the same call breaks is gone after it.
            (0..=2, Some(tack)) if !connection.broken_keys().contains(&tack.key) => {
                self.add_shown(&Shown {
                    before,
                    connection,
                    key: tack.key,
                    answer,
                    after,
                })
            }
            _ => Ok(()),
        }
    }

    fn add_shown(&mut self, shown: &Shown) -> Result<(), String> {
        let creation = Creation::of(shown.before, shown.connection, &shown.key);
        match (creation, Wanted::by(shown.connection)) {
            (Some(creation), Some(wanted)) => self.add_wanted(shown, creation, wanted),
            (Some(creation), None) => {
                self.add_unwanted(shown, creation);
                Ok(())
            }
            (None, _) if shown.extends() => self.add_extended(shown),
            (None, _) => Ok(()),
        }
    }

    fn add_wanted(
        &mut self,
        shown: &Shown,
        creation: Creation,
        wanted: Wanted,
    ) -> Result<(), String> {
        let came = match creation.has_room() {
            true => shown.has_made() && !shown.answer.no_room,
            false => shown.answer.no_room,
        };
        if !came {
            return Err(format!(
                "{creation:?} was due, activation and choice being {wanted:?}"
            ));
        }
        self.count_wanted(creation, wanted);
        if creation.has_room() {
            self.follow(shown, wanted);
        }
        Ok(())
    }

    fn count_wanted(&mut self, creation: Creation, wanted: Wanted) {
        use Wanted::{DisabledWith, EnabledWith, EnabledWithout};
        match (creation, wanted) {
            (Creation::New, EnabledWithout) => self.made.add(Made::NewEnabledWithout),
            (Creation::New, EnabledWith) => self.made.add(Made::NewEnabledWith),
            (Creation::New, DisabledWith) => self.made.add(Made::NewDisabledWith),
            (Creation::InPlace, EnabledWithout) => self.made.add(Made::InPlaceEnabledWithout),
            (Creation::InPlace, EnabledWith) => self.made.add(Made::InPlaceEnabledWith),
            (Creation::InPlace, DisabledWith) => self.made.add(Made::InPlaceDisabledWith),
            (_, EnabledWithout) => self.no_room.add(NoRoom::EnabledWithout),
            (_, EnabledWith) => self.no_room.add(NoRoom::EnabledWith),
            (_, DisabledWith) => self.no_room.add(NoRoom::DisabledWith),
        }
    }

    /// Whatever becomes of a record, the name's next one is made by a call that comes here.
    fn follow(&mut self, shown: &Shown, wanted: Wanted) {
        match wanted {
            Wanted::DisabledWith => self
                .of_disabled
                .insert(shown.name(), shown.connection.clock),
            _ => self.of_disabled.remove(&shown.name()),
        };
    }

    fn add_unwanted(&mut self, shown: &Shown, creation: Creation) {
        // The same call may break the key of the name's record.
        if shown.pin(shown.before) == shown.pin(shown.after) {
            self.not_made.add(match creation {
                Creation::New => NotMade::New,
                Creation::NoRoomForNew => NotMade::NoRoomForNew,
                Creation::InPlace => NotMade::InPlace,
                Creation::NoRoomInPlace => NotMade::NoRoomInPlace,
            });
        }
    }

    fn add_extended(&mut self, shown: &Shown) -> Result<(), String> {
        let Some(made) = self.of_disabled.get(&shown.name()) else {
            return Ok(());
        };
        self.extended.add(match shown.connection.learn_disabled {
            false => Extended::Without,
            true => Extended::With,
        });
        let clock = shown.connection.clock;
        let expected = clock + u64::from(LONGEST).min(clock - made);
        let end = shown.pin(shown.after).and_then(|pin| pin.record.end);
        match end.map(u64::from) == Some(expected) {
            true => Ok(()),
            false => Err(format!(
                "a record that a disabled tack made at {made} was extended at {clock} to {end:?}, not {expected}"
            )),
        }
    }

    pub fn end_list(&mut self) {
        self.of_disabled.clear();
    }

    /// The verdict: every kind came.
    pub fn report(&self) -> Result<(), String> {
        self.made.report()?;
        self.no_room.report()?;
        self.not_made.report()?;
        self.extended.report()
    }
}

#[cfg(test)]
mod tests {
    use super::*;
    use crate::area::Record;
    use crate::call::By;
    use crate::full_table::{delete, full, key, name, one_name_less, AFTER_ALL, NEW};
    use crate::kind_counts::Kind;
    use crate::make::generation_3;
    use crate::wire;

    /// A tack's activation, and whether the call gives the yes.
    type Choice = (u8, bool);

    const ENABLED_WITHOUT: Choice = (1, false);
    const ENABLED_WITH: Choice = (1, true);
    const DISABLED_WITH: Choice = (0, true);
    const DISABLED_WITHOUT: Choice = (0, false);

    fn call(clock: u32, numbers: (usize, usize), (activation, learn_disabled): Choice) -> Call {
        let tack = generation_3(key(numbers.1));
        let extension = wire::extension(Some(&tack), &[], activation);
        Call::Judge(Connection {
            learn_disabled,
            ..Connection::at(clock, &name(numbers.0)).with(extension)
        })
    }

    /// The call by the second program, added.
    fn add(met: &mut Disabled, area: &mut Area, call: &Call) {
        let before = area.clone();
        let answer = call.by(By::Second, &mut area.bytes);
        assert_eq!(met.add(&before, call, &answer, area), Ok(()));
    }

    /// One call after the end of all pins, on a table that stays as it is.
    fn met_on(area: &Area, numbers: (usize, usize), choice: Choice) -> Disabled {
        let mut met = Disabled::default();
        add(
            &mut met,
            &mut area.clone(),
            &call(AFTER_ALL, numbers, choice),
        );
        met
    }

    /// These kinds came, and no other.
    fn only_came<K: Kind + Copy>(counts: &KindCounts<K>, kinds: &[K]) {
        let came: Vec<usize> = kinds.iter().map(|kind| kind.number()).collect();
        let all = K::SAYS.iter().enumerate();
        let others = all.filter(|(number, _)| !came.contains(number));
        let never: Vec<&str> = others.map(|(_, says)| *says).collect();
        let expected = match never.is_empty() {
            true => Ok(()),
            false => Err(format!("{} that never came: {never:?}", K::WHAT)),
        };
        assert_eq!(counts.report(), expected);
    }

    #[test]
    fn a_record_is_counted_by_its_name_and_the_choice() {
        let area = one_name_less();
        let kinds = [
            (
                ENABLED_WITHOUT,
                Made::NewEnabledWithout,
                Made::InPlaceEnabledWithout,
            ),
            (ENABLED_WITH, Made::NewEnabledWith, Made::InPlaceEnabledWith),
            (
                DISABLED_WITH,
                Made::NewDisabledWith,
                Made::InPlaceDisabledWith,
            ),
        ];
        for (choice, new, in_place) in kinds {
            only_came(&met_on(&area, (NEW, 0), choice).made, &[new]);
            only_came(&met_on(&area, (1, 0), choice).made, &[in_place]);
        }
        only_came(&met_on(&area, (NEW, 0), DISABLED_WITHOUT).made, &[]);
    }

    #[test]
    fn no_room_is_counted_by_the_choice() {
        let kinds = [
            (ENABLED_WITHOUT, NoRoom::EnabledWithout),
            (ENABLED_WITH, NoRoom::EnabledWith),
            (DISABLED_WITH, NoRoom::DisabledWith),
        ];
        for (choice, kind) in kinds {
            for (area, numbers) in [
                (full(), (NEW, 0)),
                (full(), (0, NEW)),
                (one_name_less(), (NEW, NEW)),
            ] {
                only_came(&met_on(&area, numbers, choice).no_room, &[kind]);
            }
        }
        let met = met_on(&full(), (NEW, 0), DISABLED_WITHOUT);
        only_came(&met.no_room, &[]);
    }

    #[test]
    fn what_the_default_leaves_is_counted() {
        let kinds = [
            (one_name_less(), (NEW, 0), NotMade::New),
            (full(), (NEW, 0), NotMade::NoRoomForNew),
            (one_name_less(), (NEW, NEW), NotMade::NoRoomForNew),
            (full(), (0, 1), NotMade::InPlace),
            (full(), (0, NEW), NotMade::NoRoomInPlace),
        ];
        for (area, numbers, kind) in kinds {
            let met = met_on(&area, numbers, DISABLED_WITHOUT);
            only_came(&met.not_made, &[kind]);
            let met = met_on(&area, numbers, DISABLED_WITH);
            only_came(&met.not_made, &[]);
        }
    }

    /// A new key is shown for name 0, alone on key 0, with a break signature.
    fn met_breaking(broken: usize, (activation, learn_disabled): Choice) -> Disabled {
        let tack = generation_3(key(NEW));
        let extension = wire::extension(Some(&tack), &[key(broken)], activation);
        let connection = Connection {
            learn_disabled,
            ..Connection::at(AFTER_ALL, &name(0)).with(extension)
        };
        let (mut met, mut area) = (Disabled::default(), one_name_less());
        add(&mut met, &mut area, &Call::Judge(connection));
        met
    }

    #[test]
    fn a_record_whose_key_is_broken_is_not_counted() {
        let met = met_breaking(1, DISABLED_WITHOUT);
        only_came(&met.not_made, &[NotMade::InPlace]);
        only_came(&met_breaking(0, DISABLED_WITHOUT).not_made, &[]);
        let met = met_breaking(0, DISABLED_WITH);
        only_came(&met.made, &[Made::InPlaceDisabledWith]);
        only_came(&met_breaking(NEW, DISABLED_WITH).made, &[]);
    }

    /// Name 0 alone, first shown with this choice, then with the others, a minute later each time.
    fn met_after(choices: &[Choice]) -> Disabled {
        let (mut met, mut area) = (Disabled::default(), Area::empty());
        for (clock, choice) in (1_000..).zip(choices) {
            add(&mut met, &mut area, &call(clock, (0, 0), *choice));
        }
        met
    }

    #[test]
    fn an_extended_record_of_a_disabled_tack_is_counted() {
        let kinds = [
            (ENABLED_WITHOUT, Extended::Without),
            (ENABLED_WITH, Extended::With),
        ];
        for (choice, kind) in kinds {
            let met = met_after(&[DISABLED_WITH, DISABLED_WITHOUT, choice]);
            only_came(&met.extended, &[kind]);
            // The first call makes no record, or an enabled tack's.
            for first in [DISABLED_WITHOUT, choice] {
                let met = met_after(&[first, choice, choice]);
                only_came(&met.extended, &[]);
            }
        }
    }

    #[test]
    fn an_active_record_that_another_key_contradicts_is_not_extended() {
        let (mut met, mut area) = (Disabled::default(), Area::empty());
        add(&mut met, &mut area, &call(1_000, (0, 0), DISABLED_WITH));
        add(&mut met, &mut area, &call(1_600, (0, 0), ENABLED_WITH));
        add(&mut met, &mut area, &call(1_700, (0, 1), ENABLED_WITHOUT));
        only_came(&met.extended, &[Extended::With]);
    }

    #[test]
    fn a_later_record_of_the_name_is_another() {
        let (mut met, mut area) = (Disabled::default(), Area::empty());
        add(&mut met, &mut area, &call(1_000, (0, 0), DISABLED_WITH));
        delete(&mut area, 0);
        add(&mut met, &mut area, &call(1_001, (0, 0), ENABLED_WITHOUT));
        add(&mut met, &mut area, &call(1_002, (0, 0), ENABLED_WITHOUT));
        only_came(&met.extended, &[]);
    }

    #[test]
    fn a_list_does_not_go_on_with_the_records_of_the_one_before() {
        let mut met = met_after(&[DISABLED_WITH]);
        met.end_list();
        let mut area = Area::empty();
        let made = call(2_000, (0, 0), ENABLED_WITHOUT).by(By::Second, &mut area.bytes);
        assert_eq!(made.number, 0);
        add(&mut met, &mut area, &call(2_001, (0, 0), ENABLED_WITHOUT));
        only_came(&met.extended, &[]);
    }

    #[test]
    fn a_record_that_was_not_made_is_told() {
        let area = one_name_less();
        for choice in [ENABLED_WITHOUT, ENABLED_WITH, DISABLED_WITH] {
            let call = call(AFTER_ALL, (NEW, 0), choice);
            let unpinned = Answer::default();
            let told = Disabled::default().add(&area, &call, &unpinned, &area);
            assert!(told.is_err());
        }
    }

    #[test]
    fn a_record_that_is_no_new_one_of_the_key_is_told() {
        let before = one_name_less();
        let call = call(AFTER_ALL, (NEW, 0), DISABLED_WITH);
        let mut made = before.clone();
        let answer = call.by(By::Second, &mut made.bytes);
        let slot = made.find_name(&name(NEW)).expect("it is recorded");
        let told_of = |change: fn(&mut Record)| {
            let (mut after, mut record) = (made.clone(), made.record(slot));
            change(&mut record);
            after.put_record(slot, record);
            Disabled::default().add(&before, &call, &answer, &after)
        };
        assert_eq!(told_of(|_| {}), Ok(()));
        assert!(told_of(|record| record.initial -= 1).is_err());
        assert!(told_of(|record| record.end = Some(record.initial)).is_err());
        assert!(told_of(|record| record.key_slot += 1).is_err());
    }

    #[test]
    fn no_room_that_is_not_said_and_room_that_is_not_used_are_told() {
        for (area, numbers) in [(full(), (NEW, 0)), (one_name_less(), (NEW, 0))] {
            let call = call(AFTER_ALL, numbers, DISABLED_WITH);
            let mut after = area.clone();
            let mut answer = call.by(By::Second, &mut after.bytes);
            answer.no_room = !answer.no_room;
            let told = Disabled::default().add(&area, &call, &answer, &after);
            assert!(told.is_err());
        }
    }

    #[test]
    fn an_end_that_counts_from_the_enabled_call_is_told() {
        let (mut met, mut area) = (Disabled::default(), Area::empty());
        add(&mut met, &mut area, &call(1_000, (0, 0), DISABLED_WITH));
        let (before, call) = (area.clone(), call(1_600, (0, 0), ENABLED_WITHOUT));
        let answer = call.by(By::Second, &mut area.bytes);
        let mut record = area.record(0);
        record.end = Some(1_600);
        area.put_record(0, record);
        assert_eq!(
            met.add(&before, &call, &answer, &area),
            Err("a record that a disabled tack made at 1000 was extended at 1600 to Some(1600), not 2200".to_string())
        );
    }
}
