//! Every number in lists of both editions, by the function that answered it.

use crate::call::Call;
use crate::tally::Tally;

/// What the calls were answered so far.
#[derive(Default)]
pub struct Numbers {
    judge: Tally,
    judge_two: Tally,
    delete: Tally,
    inspect: Tally,
    inspect_second: Tally,
    start: Tally,
}

impl Numbers {
    pub fn add(&mut self, call: &Call, number: u8) {
        let tally = match call {
            Call::Judge(_) => &mut self.judge,
            Call::JudgeTwo(_) => &mut self.judge_two,
            Call::Delete { .. } => &mut self.delete,
            Call::Inspect { second: false, .. } => &mut self.inspect,
            Call::Inspect { second: true, .. } => &mut self.inspect_second,
            Call::Start(_) => &mut self.start,
        };
        tally.add(number);
    }

    /// The verdict: every number of every function came.
    pub fn report(&self) -> Result<(), String> {
        let (verdicts, inspecting) = ([0, 1, 2], [4, 5, 6, 10, 11, 12, 13]);
        let one: Vec<u8> = verdicts.into_iter().chain(10..=23).chain([27]).collect();
        let two = verdicts.into_iter().chain(10..=16).chain(18..=24);
        let two: Vec<u8> = two.chain([27]).collect();
        let of = |what| format!("mixed lists, {what},");
        self.judge.report(&of("judging of edition one"), &one)?;
        self.judge_two.report(&of("judging of edition two"), &two)?;
        self.delete.report(&of("deletion"), &[3, 4, 10, 11, 12])?;
        self.inspect
            .report(&of("inspection of the first record"), &inspecting)?;
        self.inspect_second
            .report(&of("inspection of the second record"), &inspecting)?;
        self.start.report(&of("starting"), &[7, 10])
    }
}
