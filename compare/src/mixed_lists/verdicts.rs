//! Verdicts of edition two by which of a name's records are active, and which are shown.

use super::judged::Judged;
use crate::kind_counts::{counted_kinds, KindCounts};

counted_kinds! {
    /// The verdict on a name with two records.
    OfTwo, "verdicts on names with two records";
    NoneActive, "neither active: unpinned";
    FirstConfirmed, "the first active and shown: confirmed";
    SecondConfirmed, "the second active and shown: confirmed";
    BothConfirmed, "both active and shown: confirmed";
    FirstContradicted, "the first active, not shown: contradicted";
    SecondContradicted, "the second active, not shown: contradicted";
    FirstShown, "both active, the first alone shown: contradicted";
    SecondShown, "both active, the second alone shown: contradicted";
    NeitherShown, "both active, neither shown: contradicted";
}

/// What the calls have met so far.
#[derive(Default)]
pub struct Verdicts {
    of_two: KindCounts<OfTwo>,
}

impl Verdicts {
    /// An error where the verdict is not that of the records before the call.
    pub fn add(&mut self, judged: &Judged) -> Result<(), String> {
        if !judged.has_verdict() {
            return Ok(());
        }
        // For each record that is active, whether it is shown.
        let shown: Vec<Option<bool>> = judged
            .pins_before()
            .iter()
            .map(|pin| {
                let is_active = pin.record.is_active(judged.connection.clock);
                is_active.then(|| judged.tack_of(&pin.key).is_some())
            })
            .collect();
        if let [first, second] = shown[..] {
            self.of_two.add(of_two(first, second));
        }
        let expected = match (shown.contains(&Some(false)), shown.contains(&Some(true))) {
            (true, _) => 2,
            (false, true) => 1,
            (false, false) => 0,
        };
        match judged.answer.number == expected {
            true => Ok(()),
            false => Err(format!(
                "the verdict is not {expected} but {:?}",
                judged.answer
            )),
        }
    }

    /// The verdict on the run: every kind came.
    pub fn report(&self) -> Result<(), String> {
        self.of_two.report()
    }
}

fn of_two(first: Option<bool>, second: Option<bool>) -> OfTwo {
    match (first, second) {
        (None, None) => OfTwo::NoneActive,
        (Some(true), None) => OfTwo::FirstConfirmed,
        (None, Some(true)) => OfTwo::SecondConfirmed,
        (Some(true), Some(true)) => OfTwo::BothConfirmed,
        (Some(false), None) => OfTwo::FirstContradicted,
        (None, Some(false)) => OfTwo::SecondContradicted,
        (Some(true), Some(false)) => OfTwo::FirstShown,
        (Some(false), Some(true)) => OfTwo::SecondShown,
        (Some(false), Some(false)) => OfTwo::NeitherShown,
    }
}
