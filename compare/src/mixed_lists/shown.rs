//! What connections of edition two showed, and their verdicts.

use super::judged::Judged;
use crate::tally::Tally;

/// What a connection can show, and the verdicts that it can have then.
const ALL: [(&str, &[u8]); 7] = [
    ("no extension", &[0, 2]),
    ("one tack, disabled", &[0, 1, 2]),
    ("one tack, enabled", &[0, 1, 2]),
    ("two tacks, none enabled", &[0, 1, 2]),
    ("two tacks, the first enabled", &[0, 1, 2]),
    ("two tacks, the second enabled", &[0, 1, 2]),
    ("two tacks, both enabled", &[0, 1, 2]),
];

/// Verdicts by what was shown.
#[derive(Default)]
pub struct ShownCounts([Tally; 7]);

impl ShownCounts {
    pub fn add(&mut self, judged: &Judged) {
        if judged.has_verdict() {
            let enabled: Vec<bool> = judged.tacks.iter().map(|tack| tack.enabled).collect();
            let shown = match enabled[..] {
                [first] => 1 + usize::from(first),
                [first, second] => 3 + usize::from(first) + 2 * usize::from(second),
                _ => 0,
            };
            self.0[shown].add(judged.answer.number);
        }
    }

    /// The verdict: everything was shown, with every verdict that it can have.
    pub fn report(&self) -> Result<(), String> {
        for ((shown, verdicts), tally) in ALL.iter().zip(&self.0) {
            tally.report(&format!("calls of edition two, {shown},"), verdicts)?;
        }
        Ok(())
    }
}
