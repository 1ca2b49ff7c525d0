//! Records that calls of edition two made, and those that they had no room for.

use super::judged::{Judged, Shown};
use crate::area::{Area, Pin, KEY_SLOTS, NAME_SLOTS};
use crate::kind_counts::{counted_kinds, KindCounts};

counted_kinds! {
    /// A record that was made, by what else the name and the table have.
    Made, "records made in edition two";
    Alone, "the only one of its name";
    BesideOlder, "beside an older one of its name";
    TwoAtOnce, "two at once";
    OnRecordedKey, "on a key that was recorded";
    OnNewKey, "on a new key";
    FreedNameSlot, "in the name slot of one that was removed";
    FreedKeySlot, "on a new key in the slot of one that was removed";
    NamesWereFull, "with all name slots used before a removal";
    KeysWereFull, "with a new key, all key slots used before a removal";
}

counted_kinds! {
    /// A call without room, by the tack and the slot that was lacking.
    Lack, "no room in edition two";
    NameOfFirst, "no name slot for the first tack alone";
    KeyOfFirst, "no key slot for the first tack alone";
    NameOfSecond, "no name slot for the second tack alone";
    KeyOfSecond, "no key slot for the second tack alone";
    NameOfBoth, "no name slot for both tacks";
    KeyOfBoth, "no key slot for both tacks";
    OneName, "one name slot left, which the first tack got and not the second";
    OneKey, "one key slot left, which the first tack got and not the second";
}

/// What the calls have met so far.
#[derive(Default)]
pub struct MadeCounts {
    made: KindCounts<Made>,
    lacking: KindCounts<Lack>,
}

/// What a tack asked for, and got.
#[derive(Clone, Copy, PartialEq, Eq)]
enum Asked {
    /// It is disabled, absent, or its record stood before.
    Nothing,
    Made(Pin),
    NoRoom,
}

impl MadeCounts {
    /// An error where a record is not as a new one must be, or 'no room' is not said of one that lacks.
    pub fn add(&mut self, judged: &Judged) -> Result<(), String> {
        if !judged.has_verdict() || judged.is_contradicted() {
            return no_room_is(false, judged);
        }
        let [first, second] = [0, 1].map(|index| asked(judged, judged.tacks.get(index)));
        for asked in [first, second] {
            if let Asked::Made(pin) = asked {
                self.add_made(judged, &pin)?;
            }
        }
        if let (Asked::Made(_), Asked::Made(_)) = (first, second) {
            self.made.add(Made::TwoAtOnce);
        }
        let lack = lack(judged, first, second);
        if let Some(lack) = lack {
            self.lacking.add(lack);
        }
        no_room_is(lack.is_some(), judged)
    }

    fn add_made(&mut self, judged: &Judged, pin: &Pin) -> Result<(), String> {
        let before = judged.before;
        let (pins_before, pins_after) = (judged.pins_before(), judged.pins_after());
        let stood = |other: &Pin| pins_before.iter().any(|old| old.key == other.key);
        if pins_after.len() == 1 {
            self.made.add(Made::Alone);
        } else if pins_after.iter().any(stood) {
            self.made.add(Made::BesideOlder);
        }
        if pins_before.iter().any(|old| old.name_slot == pin.name_slot) {
            self.made.add(Made::FreedNameSlot);
        }
        if before.used_names().len() == NAME_SLOTS {
            self.made.add(Made::NamesWereFull);
        }
        self.add_key(before, pin);
        let is_new = u64::from(pin.record.initial) == judged.connection.clock;
        match is_new && pin.record.end.is_none() {
            true => Ok(()),
            false => Err(format!(
                "the record in name slot {} is no new one",
                pin.name_slot
            )),
        }
    }

    fn add_key(&mut self, before: &Area, pin: &Pin) {
        if before.find_key(&pin.key).is_some() {
            self.made.add(Made::OnRecordedKey);
            return;
        }
        self.made.add(Made::OnNewKey);
        if before.key_slot(pin.record.key_slot)[0] == 1 {
            self.made.add(Made::FreedKeySlot);
        }
        if before.used_keys().len() == KEY_SLOTS {
            self.made.add(Made::KeysWereFull);
        }
    }

    /// The verdict: every kind of record that is made, and every kind of room that is lacking, came.
    pub fn report(&self) -> Result<(), String> {
        self.made.report()?;
        self.lacking.report()
    }
}

fn asked(judged: &Judged, tack: Option<&Shown>) -> Asked {
    let with_key = |pins: Vec<Pin>, tack: &Shown| pins.into_iter().find(|pin| pin.key == tack.key);
    match tack {
        Some(tack) if tack.enabled && with_key(judged.pins_before(), tack).is_none() => {
            match with_key(judged.pins_after(), tack) {
                Some(pin) => Asked::Made(pin),
                None => Asked::NoRoom,
            }
        }
        _ => Asked::Nothing,
    }
}

/// Records go before room is counted, and none goes afterwards: a slot that is free after the call was free for both tacks.
fn lack(judged: &Judged, first: Asked, second: Asked) -> Option<Lack> {
    let names_are_full = judged.after.used_names().len() == NAME_SLOTS;
    Some(match (first, second, names_are_full) {
        (Asked::NoRoom, Asked::NoRoom, true) => Lack::NameOfBoth,
        (Asked::NoRoom, Asked::NoRoom, false) => Lack::KeyOfBoth,
        // The second got a name slot, so there was one for the first.
        (Asked::NoRoom, Asked::Made(_), _) => Lack::KeyOfFirst,
        (Asked::NoRoom, Asked::Nothing, true) => Lack::NameOfFirst,
        (Asked::NoRoom, Asked::Nothing, false) => Lack::KeyOfFirst,
        (Asked::Made(_), Asked::NoRoom, true) => Lack::OneName,
        (Asked::Made(pin), Asked::NoRoom, false) => match judged.before.find_key(&pin.key) {
            None => Lack::OneKey,
            Some(_) => Lack::KeyOfSecond,
        },
        (Asked::Nothing, Asked::NoRoom, true) => Lack::NameOfSecond,
        (Asked::Nothing, Asked::NoRoom, false) => Lack::KeyOfSecond,
        _ => return None,
    })
}

fn no_room_is(expected: bool, judged: &Judged) -> Result<(), String> {
    match judged.answer.no_room == expected {
        true => Ok(()),
        false => Err(format!("no room is not {expected} in {:?}", judged.answer)),
    }
}
