//! Which tack of edition two a refusal was for.

use super::judged::{Judged, Shown};
use crate::kind_counts::{counted_kinds, KindCounts};

counted_kinds! {
    /// A refusal of edition two, by the tack that it is for.
    Fault, "refusals of edition two";
    KeyOfFirst, "18, the first tack's key is no point";
    KeyOfSecond, "18, the second tack's key is no point";
    MinimumOfFirst, "19, the first tack's generation";
    MinimumOfSecond, "19, the second tack's generation";
    HashOfFirst, "20, the first tack's target hash";
    HashOfSecond, "20, the second tack's target hash";
    SignatureOfFirst, "21, the first tack's signature";
    SignatureOfSecond, "21, the second tack's signature";
    FloorOfFirst, "22, the first tack's generation alone";
    FloorOfSecond, "22, the second tack's generation alone";
    FloorOfBoth, "22, the generations of both tacks";
    BelowClockOfFirst, "23, the first tack's expiration below the clock";
    BelowClockOfSecond, "23, the second tack's expiration below the clock";
    AtClockOfFirst, "23, the first tack's expiration at the clock";
    AtClockOfSecond, "23, the second tack's expiration at the clock";
    OneKey, "24, without another fault";
    OneKeyBeforeOthers, "24, before another fault";
}

counted_kinds! {
    /// Expirations above the clock by a minute, of tacks that got a verdict.
    Unexpired, "verdicts of edition two a minute before the expiration";
    OfFirst, "of the first tack";
    OfSecond, "of the second tack";
}

counted_kinds! {
    /// Tacks with a min_generation above the floor of their key, which a verdict would have raised.
    NotRaised, "floors not raised by a 23 of edition two";
    FirstExpired, "by the first tack, which has expired";
    SecondExpired, "by the second tack, which has expired";
    Unexpired, "by the tack beside an expired one";
}

/// What the calls have met so far.
#[derive(Default)]
pub struct Faults {
    refused: KindCounts<Fault>,
    unexpired: KindCounts<Unexpired>,
    not_raised: KindCounts<NotRaised>,
}

impl Faults {
    pub fn add(&mut self, judged: &Judged) {
        if let Some(fault) = fault(judged) {
            self.refused.add(fault);
        }
        if judged.answer.number == 23 {
            self.add_not_raised(judged);
        }
        let places = [Unexpired::OfFirst, Unexpired::OfSecond];
        for (tack, place) in judged.tacks.iter().zip(places) {
            let is_next = u64::from(tack.expiration) == judged.connection.clock + 1;
            if is_next && judged.has_verdict() {
                self.unexpired.add(place);
            }
        }
    }

    fn add_not_raised(&mut self, judged: &Judged) {
        for (index, tack) in judged.tacks.iter().enumerate() {
            let floor = judged.before.floor(&tack.key);
            if floor.is_some_and(|floor| floor < tack.min_generation) {
                self.not_raised
                    .add(match (has(judged, tack, index, 23), index) {
                        (false, _) => NotRaised::Unexpired,
                        (true, 0) => NotRaised::FirstExpired,
                        (true, _) => NotRaised::SecondExpired,
                    });
            }
        }
    }

    /// The verdict: every refusal came for either tack, each expired just before its clock, and 23 raised no floor.
    pub fn report(&self) -> Result<(), String> {
        self.refused.report()?;
        self.unexpired.report()?;
        self.not_raised.report()
    }
}

/// The refusal, if it is one for a tack.
fn fault(judged: &Judged) -> Option<Fault> {
    let number = judged.answer.number;
    let (first, second) = (judged.tacks.first()?, judged.tacks.get(1));
    // Whatever is wrong with the first tack is found before anything of the second.
    let of_first = has(judged, first, 0, number);
    Some(match (number, of_first) {
        (18, true) => Fault::KeyOfFirst,
        (18, false) => Fault::KeyOfSecond,
        (19, true) => Fault::MinimumOfFirst,
        (19, false) => Fault::MinimumOfSecond,
        (20, true) => Fault::HashOfFirst,
        (20, false) => Fault::HashOfSecond,
        (21, true) => Fault::SignatureOfFirst,
        (21, false) => Fault::SignatureOfSecond,
        (22, true) if second.is_some_and(|tack| has(judged, tack, 1, 22)) => Fault::FloorOfBoth,
        (22, true) => Fault::FloorOfFirst,
        (22, false) => Fault::FloorOfSecond,
        (23, true) if is_at_clock(judged, first) => Fault::AtClockOfFirst,
        (23, true) => Fault::BelowClockOfFirst,
        (23, false) if is_at_clock(judged, second?) => Fault::AtClockOfSecond,
        (23, false) => Fault::BelowClockOfSecond,
        (24, _) if (18..=23).any(|other| has_either(judged, other)) => Fault::OneKeyBeforeOthers,
        (24, _) => Fault::OneKey,
        _ => return None,
    })
}

fn has_either(judged: &Judged, number: u8) -> bool {
    let mut tacks = judged.tacks.iter().enumerate();
    tacks.any(|(index, tack)| has(judged, tack, index, number))
}

/// Whether the tack in this place has the fault of the number.
fn has(judged: &Judged, tack: &Shown, index: usize, number: u8) -> bool {
    let connection = judged.connection;
    let says_no = |answers: u8| answers >> index & 1 == 0;
    match number {
        18 => says_no(connection.keys_are_points),
        19 => tack.generation < tack.min_generation,
        20 => connection.hash != tack.target_hash,
        21 => says_no(connection.signatures_correct),
        22 => judged
            .before
            .floor(&tack.key)
            .is_some_and(|floor| tack.generation < floor),
        23 => u64::from(tack.expiration) <= connection.clock,
        _ => false,
    }
}

fn is_at_clock(judged: &Judged, tack: &Shown) -> bool {
    u64::from(tack.expiration) == judged.connection.clock
}
