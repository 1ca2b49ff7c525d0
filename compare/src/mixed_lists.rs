//! Whole lists of calls in both editions, with starts for either between them, and calls on full tables of edition two.

mod faults;
mod flaws;
mod floors;
mod full;
mod judged;
mod made;
mod managed;
mod numbers;
mod records;
mod shown;
mod small;
mod verdicts;

use crate::area::{Area, LENGTH};
use crate::both;
use crate::call::{Answer, Call};
use crate::choices::{Choices, Mix};
use crate::lists::aside;
use crate::lists::spellings::Spellings;
use crate::random::Random;
use faults::Faults;
use flaws::Flawed;
use floors::Floors;
use judged::Judged;
use made::MadeCounts;
use managed::Managed;
use numbers::Numbers;
use records::Records;
use shown::ShownCounts;
use tack::table::Edition;
use verdicts::Verdicts;

/// What the lists have met so far.
#[derive(Default)]
pub struct MixedLists {
    numbers: Numbers,
    spellings: Spellings,
    managed: Managed,
    two: JudgingTwo,
}

/// What judging by tables of edition two has met so far.
#[derive(Default)]
struct JudgingTwo {
    shown: ShownCounts,
    faults: Faults,
    verdicts: Verdicts,
    floors: Floors,
    records: Records,
    made: MadeCounts,
}

impl JudgingTwo {
    fn add(&mut self, judged: &Judged) -> Result<(), String> {
        self.shown.add(judged);
        self.faults.add(judged);
        self.verdicts.add(judged)?;
        self.floors.add(judged)?;
        self.records.add(judged)?;
        self.made.add(judged)
    }

    fn report(&self) -> Result<(), String> {
        self.shown.report()?;
        self.faults.report()?;
        self.verdicts.report()?;
        self.floors.report()?;
        self.records.report()?;
        self.made.report()
    }
}

impl MixedLists {
    /// Every case of a small and of a full table; connections with every two flaws.
    pub fn edges(&mut self) -> Result<u64, String> {
        let mut calls = 0;
        for (mut area, call) in small::cases().chain(full::cases()) {
            self.call(&mut area, &call)?;
            calls += 1;
        }
        for flawed in flaws::all() {
            calls += self.flawed(flawed)?;
        }
        Ok(calls)
    }

    /// By a table of either edition, by a damaged one, and by an area of another length: 10, 11 and 27 come before all flaws.
    fn flawed(&mut self, Flawed { connection, number }: Flawed) -> Result<u64, String> {
        let call = Call::JudgeTwo(connection);
        let [mut one, mut two] = [Edition::One, Edition::Two].map(flaws::table);
        let mut damaged = one.clone();
        damaged.bytes[LENGTH - 1] = 1;
        let mut shorter = one.bytes[1..].to_vec();
        let answers = [
            (10, self.both(&mut shorter, &call)?),
            (11, self.both(&mut damaged.bytes, &call)?),
            (27, self.both(&mut one.bytes, &call)?),
            (number, self.call(&mut two, &call)?),
        ];
        match answers
            .iter()
            .find(|(number, answer)| *number != answer.number)
        {
            None => Ok(answers.len() as u64),
            Some(unlike) => Err(format!("both agree, but not on {unlike:?}: {call:02x?}")),
        }
    }

    /// One list, by one mix, from the empty table of either edition, more often of edition two.
    pub fn list(&mut self, random: &mut Random) -> Result<u64, String> {
        let (mut mix, length) = Mix::of_list(random);
        mix.one_start_in /= 2;
        let editions = [Edition::One, Edition::Two, Edition::Two, Edition::Two];
        let mut area = Area::of_edition(*random.pick(&editions));
        let mut calls = 0;
        while calls < length {
            let call = Choices::new(&mix, &area, random).call_of_either();
            if random.one_in(one_aside_in(&call)) {
                self.both(&mut aside::changed(&area, random), &call)?;
                calls += 1;
            }
            self.call(&mut area, &call)?;
            calls += 1;
        }
        self.spellings.end_list();
        Ok(calls)
    }

    /// A call on a sound table.
    fn call(&mut self, area: &mut Area, call: &Call) -> Result<Answer, String> {
        let before = area.clone();
        let answer = self.both(&mut area.bytes, call)?;
        self.managed.add(&before, call, &answer, area);
        match call {
            Call::JudgeTwo(connection) if before.edition() == Edition::Two => {
                let judged = Judged::new(&before, connection, &answer, area);
                self.two
                    .add(&judged)
                    .map_err(|problem| format!("both agree, but {problem}: {call:02x?}"))?;
            }
            _ => {}
        }
        Ok(answer)
    }

    fn both(&mut self, table: &mut [u8], call: &Call) -> Result<Answer, String> {
        let answer = both::call(table, call)?;
        self.numbers.add(call, answer.number);
        self.spellings.add(call, answer.number);
        Ok(answer)
    }

    /// The verdict: every number, every spelling and every kind came.
    pub fn finish(&self) -> Result<(), String> {
        self.numbers.report()?;
        let named: Vec<u8> = (0..=6).chain(10..=16).chain(18..=24).chain([27]).collect();
        self.spellings.report("calls of mixed lists", &named)?;
        self.managed.report()?;
        self.two.report()
    }
}

/// So often a call is made on a changed copy too: the rarer it is in a list, the more often.
fn one_aside_in(call: &Call) -> usize {
    match call {
        Call::Judge(_) | Call::JudgeTwo(_) => 25,
        Call::Inspect { .. } | Call::Delete { .. } => 8,
        Call::Start(_) => 1,
    }
}
