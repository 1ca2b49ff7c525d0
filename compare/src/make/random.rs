//! A random night: judging calls chosen as those of the compared lists, so that they meet the table's records and edges.
//!
//! Only the choice looks at the table, which the second program brings up to date. The bytes are the maker's own.

use crate::area::{Area, LIMIT};
use crate::call::Connection;
use crate::choices::{Choices, Mix};
use crate::random::Random;
use crate::record::{self, LONGEST_EXTENSION, LONGEST_NAME};
use second::{judge_kept, PinTable};

/// The longest step of a clock in a mix.
const LONGEST_STEP: u64 = 50_000;

/// So many random calls.
pub fn random(calls: u64, seed: u64) -> impl Iterator<Item = Connection> {
    let mut night = Night::new(calls, Random::new(seed));
    (0..calls).map(move |_| night.call())
}

/// A night as far as it is made.
struct Night {
    random: Random,
    mix: Mix,
    /// So many calls are still to be made by the mix.
    calls_of_mix: u64,
    table: PinTable,
    /// The same table as bytes.
    area: Area,
}

impl Night {
    /// Short nights may begin at the last clock; others begin where the clock has room to move on.
    fn new(calls: u64, mut random: Random) -> Night {
        let (mut mix, calls_of_mix) = Mix::of_list(&mut random);
        if calls > 300 {
            let room = calls.saturating_mul(LONGEST_STEP).min(u64::from(LIMIT)) as u32;
            mix.first_clock = mix.first_clock.min(LIMIT - room);
        }
        Night {
            random,
            mix,
            calls_of_mix,
            table: PinTable::empty(),
            area: Area::empty(),
        }
    }

    fn call(&mut self) -> Connection {
        if self.calls_of_mix == 0 {
            (self.mix, self.calls_of_mix) = Mix::of_list(&mut self.random);
        }
        self.calls_of_mix -= 1;
        let call = self.recordable();
        judge_kept(&mut self.table, &call.for_second());
        self.table.write(&mut self.area.bytes);
        call
    }

    /// Chosen again until the call has a recorded form: a clock of 33 bits and a hash of 31 bytes have none.
    fn recordable(&mut self) -> Connection {
        loop {
            let mut call = Choices::new(&self.mix, &self.area, &mut self.random).connection();
            self.perhaps_lengthen(&mut call);
            if record::fields(&call).is_some() {
                return call;
            }
        }
    }

    /// Now and then a name or an extension that is longer than any good one, up to the longest that is recorded.
    fn perhaps_lengthen(&mut self, call: &mut Connection) {
        if self.random.one_in(100) {
            let any = call.name.len() + self.random.below(LONGEST_NAME - call.name.len() + 1);
            call.name
                .resize(*self.random.pick(&[any, LONGEST_NAME]), b'a');
        }
        if self.random.one_in(100) {
            let length = call.extension.len();
            let any = length + self.random.below(LONGEST_EXTENSION - length + 1);
            call.extension
                .resize(*self.random.pick(&[any, LONGEST_EXTENSION]), 0);
        }
    }
}

#[cfg(test)]
mod tests {
    use super::*;
    use crate::call::{By, Call};
    use crate::lists::expired::Expired;
    use crate::make;

    /// By the second program alone: 23 raises floors, and some numbers 22 come for no other reason.
    #[test]
    fn expired_tacks_revoke() {
        let mut expired = Expired::default();
        for seed in 0..20 {
            let mut area = Area::empty();
            for connection in random(1_000, seed) {
                let (before, call) = (area.clone(), Call::Judge(connection));
                let answer = call.by(By::Second, &mut area.bytes);
                assert_eq!(expired.add(&before, &call, &answer, &area), Ok(()));
            }
            expired.end_list();
        }
        assert_eq!(expired.report(), Ok(()));
    }

    /// By the second program alone; some verdicts are of records that only the yes makes.
    #[test]
    fn calls_are_judged_as_they_are_replayed() {
        for seed in 0..5 {
            let mut area = Area::empty();
            let night: Vec<Connection> = random(400, seed).collect();
            let judged = night.iter().enumerate().map(|(index, call)| {
                let judged = second::judge(&mut area.bytes, &call.for_second());
                let no_room = u8::from(judged.no_room);
                format!("{index} {} {} {no_room}\n", judged.number, judged.alert)
            });
            let judged: String = judged.collect();
            let bytes = make::bytes(night).expect("a made night is recordable");
            let report = String::from_utf8(second::report(&bytes)).expect("it is text");
            assert_eq!(report, format!("{judged}total 400\n"));
        }
    }
}
