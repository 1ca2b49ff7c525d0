//! What became of the records of a name when a call of edition two had a verdict: each is extended, left or removed.

use super::judged::Judged;
use crate::area::{Pin, LONGEST};
use crate::kind_counts::{counted_kinds, KindCounts};
use crate::lists::ages::Ages;

counted_kinds! {
    /// A record of the call's name, by what the call showed of its key.
    Record, "records of the call's name in edition two";
    ActiveEnabled, "active, its tack enabled: extended";
    InactiveEnabled, "inactive, its tack enabled: extended";
    ActiveDisabled, "active, its tack disabled: left";
    InactiveDisabled, "inactive, its tack disabled: removed";
    InactiveUnshown, "inactive, not shown: removed";
    ActiveUnshown, "active, not shown: left, the call contradicted";
    ContradictedShown, "another of a contradicted call, its tack enabled: left";
    ContradictedInactive, "another of a contradicted call, inactive, no enabled tack: left";
    ContradictedDisabled, "another of a contradicted call, active, its tack disabled: left";
}

counted_kinds! {
    /// The key of a record that was removed.
    KeyOf, "keys of records that a call of edition two removed";
    NoName, "no name left on it: removed";
    OtherName, "another name on it: left";
}

/// What is due to a record.
#[derive(Debug, Clone, Copy)]
enum Due {
    Extended,
    Left,
    Removed,
}

/// What the calls have met so far.
#[derive(Default)]
pub struct Records {
    records: KindCounts<Record>,
    keys: KindCounts<KeyOf>,
    ages: Ages,
}

impl Records {
    /// An error where a record did not get what is due to it.
    pub fn add(&mut self, judged: &Judged) -> Result<(), String> {
        let clock = judged.connection.clock;
        for pin in judged.pins_before() {
            let is_enabled = judged.tack_of(&pin.key).is_some_and(|tack| tack.enabled);
            if is_enabled && !judged.is_contradicted() {
                self.ages
                    .add_record(pin.record.initial, clock, judged.answer.number)?;
            }
            if judged.has_verdict() {
                self.add_pin(judged, &pin)?;
            }
        }
        Ok(())
    }

    fn add_pin(&mut self, judged: &Judged, pin: &Pin) -> Result<(), String> {
        let (kind, due) = kind(judged, pin);
        self.records.add(kind);
        if let Due::Removed = due {
            self.keys.add(match judged.after.find_key(&pin.key) {
                None => KeyOf::NoName,
                Some(_) => KeyOf::OtherName,
            });
        }
        let now = judged.pins_after().into_iter();
        let now = now.filter(|now| now.key == pin.key).collect::<Vec<Pin>>();
        match now == expected(judged.connection.clock, pin, due) {
            true => Ok(()),
            false => Err(format!(
                "the record in name slot {} ({kind:?}) is not {due:?}",
                pin.name_slot
            )),
        }
    }

    /// The verdict: every kind of record, of its key and of its age came.
    pub fn report(&self) -> Result<(), String> {
        self.records.report()?;
        self.keys.report()?;
        self.ages.report("pins of edition two")
    }
}

fn kind(judged: &Judged, pin: &Pin) -> (Record, Due) {
    let is_active = pin.record.is_active(judged.connection.clock);
    let enabled = judged.tack_of(&pin.key).map(|tack| tack.enabled);
    match (judged.is_contradicted(), is_active, enabled) {
        (false, true, Some(true)) => (Record::ActiveEnabled, Due::Extended),
        (false, false, Some(true)) => (Record::InactiveEnabled, Due::Extended),
        (false, true, Some(false)) => (Record::ActiveDisabled, Due::Left),
        (false, false, Some(false)) => (Record::InactiveDisabled, Due::Removed),
        (false, false, None) => (Record::InactiveUnshown, Due::Removed),
        (_, true, None) => (Record::ActiveUnshown, Due::Left),
        (true, _, Some(true)) => (Record::ContradictedShown, Due::Left),
        (true, true, Some(false)) => (Record::ContradictedDisabled, Due::Left),
        (true, false, _) => (Record::ContradictedInactive, Due::Left),
    }
}

/// The name's records with the pin's key after the call.
fn expected(clock: u64, pin: &Pin, due: Due) -> Vec<Pin> {
    let mut pin = *pin;
    match due {
        Due::Removed => return vec![],
        Due::Left => {}
        Due::Extended => {
            // A clock with a verdict has 32 bits.
            let clock = clock as u32;
            pin.record.end = Some(clock + LONGEST.min(clock - pin.record.initial));
        }
    }
    vec![pin]
}
