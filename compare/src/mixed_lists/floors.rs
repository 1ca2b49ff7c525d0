//! Floors that calls of edition two raised.

use super::judged::{Judged, Shown};
use crate::kind_counts::{counted_kinds, KindCounts};

counted_kinds! {
    /// A floor that was raised, by the tack and the call that raised it.
    Raised, "floors raised in edition two";
    ByFirst, "by the first tack";
    BySecond, "by the second tack";
    ByDisabled, "by a disabled tack";
    OfOtherName, "of a key that the name is not pinned to";
    ByContradicted, "by a contradicted call";
    KeyRemoved, "of a key that the same call removed";
}

/// What the calls have met so far.
#[derive(Default)]
pub struct Floors(KindCounts<Raised>);

impl Floors {
    /// An error where a recorded key that is shown does not get the higher of its floor and the tack's min_generation.
    pub fn add(&mut self, judged: &Judged) -> Result<(), String> {
        if !judged.has_verdict() {
            return Ok(());
        }
        for (tack, place) in judged.tacks.iter().zip([Raised::ByFirst, Raised::BySecond]) {
            let Some(floor) = judged.before.floor(&tack.key) else {
                continue;
            };
            if tack.min_generation > floor {
                self.0.add(place);
                self.add_raised(judged, tack);
            }
            let after = judged.after.floor(&tack.key);
            if after.is_some_and(|after| after != floor.max(tack.min_generation)) {
                return Err(format!("the floor {floor} became {after:?}"));
            }
        }
        Ok(())
    }

    fn add_raised(&mut self, judged: &Judged, tack: &Shown) {
        if !tack.enabled {
            self.0.add(Raised::ByDisabled);
        }
        if !judged.pins_before().iter().any(|pin| pin.key == tack.key) {
            self.0.add(Raised::OfOtherName);
        }
        if judged.is_contradicted() {
            self.0.add(Raised::ByContradicted);
        }
        if judged.after.find_key(&tack.key).is_none() {
            self.0.add(Raised::KeyRemoved);
        }
    }

    /// The verdict: floors were raised in every way.
    pub fn report(&self) -> Result<(), String> {
        self.0.report()
    }
}
