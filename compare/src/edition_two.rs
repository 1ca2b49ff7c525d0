//! What is compared of edition two: its extensions, names and keys that are alike, its tables, lists of calls in both editions.

use crate::alike::two::AlikeTwo;
use crate::extensions_two::ExtensionsTwo;
use crate::length::Progress;
use crate::mixed_lists::MixedLists;
use crate::random::Random;
use crate::tables::Tables;
use tack::table::Edition;

/// The parts, and what they have met so far.
pub struct EditionTwo {
    random: Random,
    extensions: ExtensionsTwo,
    alike: AlikeTwo,
    tables: Tables,
    lists: MixedLists,
}

impl EditionTwo {
    /// Its own random choices leave those of edition one as they are.
    pub fn new(seed: u64) -> EditionTwo {
        EditionTwo {
            random: Random::new(seed),
            extensions: ExtensionsTwo::default(),
            alike: AlikeTwo::default(),
            tables: Tables::new(Edition::Two),
            lists: MixedLists::default(),
        }
    }

    /// What every run begins with, however short.
    pub fn edges(&mut self, progress: &mut Progress) -> Result<(), String> {
        let random = &mut self.random;
        progress.begin("edition two: extensions, names and keys alike");
        progress.inputs_two += self.extensions.edges(random)? + self.alike.edges()?;
        progress.begin("edition two: tables");
        progress.calls_two += self.tables.edges(random)?;
        progress.begin("edition two: edges of lists");
        progress.calls_two += self.lists.edges()?;
        for _ in 0..15 {
            progress.begin("lists in both editions");
            progress.calls_two += self.lists.list(random)?;
            progress.say();
        }
        Ok(())
    }

    /// A table and some extensions; a list of calls one time in two, so that a run is not much longer for edition two.
    pub fn round(&mut self, progress: &mut Progress) -> Result<(), String> {
        let random = &mut self.random;
        progress.begin("edition two: tables, lists and extensions");
        progress.calls_two += self.tables.case(random)?;
        if random.one_in(2) {
            progress.calls_two += self.lists.list(random)?;
        }
        for _ in 0..100 {
            progress.inputs_two += self.extensions.case(random)?;
        }
        Ok(())
    }

    /// The verdict: every kind came in each part.
    pub fn finish(&self) -> Result<(), String> {
        self.extensions.finish()?;
        self.alike.finish()?;
        self.tables.finish()?;
        self.lists.finish()
    }
}
