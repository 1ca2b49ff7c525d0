//! How the names of the calls were spelled.

use super::all_came;
use crate::call::Call;
use crate::spelling::{self, Spelling};
use crate::tally::Tally;
use std::collections::BTreeSet;

/// What the lists have met so far.
#[derive(Default)]
pub struct Spellings {
    /// The answers to calls whose name has a capital. Each was given again, by each program, to the name in small letters.
    numbers: Tally,
    one_capital: u64,
    some_capitals: u64,
    all_capitals: u64,
    /// Names that came in several spellings in one list.
    mixed: u64,
    /// The spellings in the list that is being made.
    of_list: BTreeSet<Vec<u8>>,
}

impl Spellings {
    pub fn add(&mut self, call: &Call, number: u8) {
        let Some(name) = call.name() else { return };
        self.of_list.insert(name.to_vec());
        match Spelling::of(name) {
            Spelling::Small => return,
            Spelling::OneCapital => self.one_capital += 1,
            Spelling::SomeCapitals => self.some_capitals += 1,
            Spelling::AllCapitals => self.all_capitals += 1,
        }
        self.numbers.add(number);
    }

    pub fn end_list(&mut self) {
        let mut once = BTreeSet::new();
        let mut mixed = BTreeSet::new();
        for name in std::mem::take(&mut self.of_list) {
            let small = spelling::small(&name);
            if !once.insert(small.clone()) {
                mixed.insert(small);
            }
        }
        self.mixed += mixed.len() as u64;
    }

    /// The verdict: every spelling came, and with capitals every number that a call with a name can have.
    pub fn report(&self, what: &str, numbers: &[u8]) -> Result<(), String> {
        self.numbers
            .report(&format!("{what} with capitals"), numbers)?;
        let (one, some, all) = (self.one_capital, self.some_capitals, self.all_capitals);
        let mixed = self.mixed;
        println!(
            "spellings in {what}: {one} with one capital, {some} with some, {all} with all; {mixed} times a name in several in one list"
        );
        all_came("a spelling", &[one, some, all, mixed])
    }
}
