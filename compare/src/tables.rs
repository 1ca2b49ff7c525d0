//! Single calls on sound tables of every fill, and on tables with every kind of damage, in either edition.

use crate::area::{other, Area, KEY_SLOTS, LENGTH, NAME_SLOTS};
use crate::both;
use crate::call::Call;
use crate::choices::{Choices, Mix};
use crate::damage::{self, Kind, PLACES};
use crate::pool;
use crate::random::Random;
use crate::sound::{self, Fill};
use crate::spelling;
use crate::tally::Tally;
use tack::table::Edition;

/// What the tables of an edition have met so far.
pub struct Tables {
    edition: Edition,
    numbers: Tally,
    fills: u64,
    kinds: Vec<&'static Kind>,
    /// For each kind of damage, how often it came in the first, a middle and the last slot.
    damage: Vec<[u64; 3]>,
}

impl Tables {
    pub fn new(edition: Edition) -> Tables {
        let kinds = damage::kinds(edition);
        Tables {
            edition,
            numbers: Tally::default(),
            fills: 0,
            damage: vec![[0; 3]; kinds.len()],
            kinds,
        }
    }

    /// Every kind of damage in every place; other lengths; every number of names with every number of keys.
    pub fn edges(&mut self, random: &mut Random) -> Result<u64, String> {
        let mut calls = 0;
        for _ in 0..10 {
            for kind in 0..self.kinds.len() {
                for place in 0..PLACES.len() {
                    calls += self.damaged(kind, place, random)?;
                }
            }
        }
        for length in [0, 1, LENGTH - 1, LENGTH + 1, 2 * LENGTH] {
            let chosen = chosen(&Area::of_edition(self.edition), random);
            calls += self.calls(&mut vec![0xa5; length], &chosen, |number| number == 10)?;
        }
        for (names, keys) in self.every_fill() {
            calls += self.filled(names, keys, random)?;
        }
        Ok(calls)
    }

    /// Numbers of names and keys: all in edition one, and in edition two all that are near an edge.
    fn every_fill(&self) -> Vec<(usize, usize)> {
        let mut fills = vec![];
        for names in 0..=NAME_SLOTS {
            for keys in usize::from(names > 0)..=names.min(KEY_SLOTS) {
                let is_near = keys <= 3 || keys + 1 >= names.min(KEY_SLOTS);
                if self.edition == Edition::One || is_near {
                    fills.push((names, keys));
                }
            }
        }
        fills
    }

    /// One random table of each sort.
    pub fn case(&mut self, random: &mut Random) -> Result<u64, String> {
        let names = random.below(NAME_SLOTS + 1);
        let most_keys = names.min(KEY_SLOTS);
        let keys = most_keys - random.below(most_keys.max(1));
        let (kind, place) = (random.below(self.kinds.len()), random.below(PLACES.len()));
        Ok(self.filled(names, keys, random)? + self.damaged(kind, place, random)?)
    }

    /// A sound table: a recorded name inspected and deleted; and other calls, then the table started.
    fn filled(&mut self, names: usize, keys: usize, random: &mut Random) -> Result<u64, String> {
        let area = sound::table(&Fill::of(self.edition, names, keys, random), random);
        self.fills += 1;
        let is_sound = |number| !(10..=11).contains(&number);
        let recorded = recorded(&area, random);
        let others = chosen(&area, random);
        Ok(self.calls(&mut area.bytes.clone(), &recorded, is_sound)?
            + self.calls(&mut area.bytes.clone(), &others, is_sound)?)
    }

    /// A damaged table, or one at an edge of soundness, which the other edition judges too; the calls are chosen before the
    /// damage.
    fn damaged(&mut self, kind: usize, place: usize, random: &mut Random) -> Result<u64, String> {
        let damage = self.kinds[kind];
        let Kind { name, broken, .. } = *damage;
        let slot = damage.slot(PLACES[place], random);
        let mut area = sound::table(&damage.fill(self.edition, slot, random), random);
        let mut chosen = chosen(&area, random);
        chosen.insert(0, by_other_edition(&area, random));
        damage.apply(&mut area, slot, random);
        match second::parse(&area.bytes).err() {
            None if broken.is_empty() => {}
            Some(damage) if broken.contains(&damage) => {}
            other => {
                return Err(format!(
                    "{name} in slot {slot} was to break {broken:?}, not {other:?}"
                ))
            }
        }
        self.damage[kind][place] += 1;
        let is_expected = |number| (number == 11) != broken.is_empty();
        self.calls(&mut area.bytes, &chosen, is_expected)
            .map_err(|problem| format!("{name} in slot {slot}: {problem}"))
    }

    /// The calls one after the other; only starting may answer something unexpected.
    fn calls(
        &mut self,
        table: &mut [u8],
        calls: &[Call],
        is_expected: impl Fn(u8) -> bool,
    ) -> Result<u64, String> {
        for call in calls {
            let answer = both::call(table, call)?;
            self.numbers.add(answer.number);
            if !is_expected(answer.number) && answer.number != 7 {
                return Err(format!("both answered {answer:?}; {call:02x?}"));
            }
        }
        Ok(calls.len() as u64)
    }

    /// The verdict: every number of deletion, inspection and starting, 27, and every kind of damage in every place came.
    pub fn finish(&self) -> Result<(), String> {
        let numbers = [0, 1, 2, 3, 4, 5, 6, 7, 10, 11, 12, 13, 27];
        let edition = self.edition;
        self.numbers
            .report(&format!("calls on tables of {edition}"), &numbers)?;
        let least = self.damage.iter().flatten().min().copied().unwrap_or(0);
        let (fills, kinds) = (self.fills, self.kinds.len());
        println!("tables of {edition}: {fills} sound; {kinds} kinds of damage and edges, each at least {least} times in each place");
        let never = self.kinds.iter().zip(&self.damage);
        let never: Vec<&str> = never
            .filter(|(_, counts)| counts.contains(&0))
            .map(|(kind, _)| kind.name)
            .collect();
        match never.is_empty() {
            true => Ok(()),
            false => Err(format!("kinds of damage that never came: {never:?}")),
        }
    }
}

/// A recorded name, if there is one, inspected and deleted, each time in any spelling.
fn recorded(area: &Area, random: &mut Random) -> Vec<Call> {
    let used = area.used_names();
    if used.is_empty() {
        return vec![];
    }
    let name = area.name(*random.pick(&used)).to_vec();
    let mut spelled = || spelling::any(name.clone(), random);
    let (before, name, after) = (spelled(), spelled(), spelled());
    let mix = mix(random);
    let mut choices = Choices::new(&mix, area, random);
    let (before, after) = (choices.inspection_of(before), choices.inspection_of(after));
    vec![before, Call::Delete { name }, after]
}

/// Inspection, judging, deletion and starting.
fn chosen(area: &Area, random: &mut Random) -> Vec<Call> {
    let mix = mix(random);
    let mut choices = Choices::new(&mix, area, random);
    let (inspection, judgement) = (choices.inspection(), choices.judgement_by(area.edition()));
    vec![inspection, judgement, choices.deletion(), choices.start()]
}

/// Judging by the edition that the table is not of.
fn by_other_edition(area: &Area, random: &mut Random) -> Call {
    let mix = mix(random);
    let mut choices = Choices::new(&mix, area, random);
    choices.judgement_by(other(area.edition()))
}

fn mix(random: &mut Random) -> Mix {
    Mix {
        names: 200,
        keys: 256,
        name_family: random.below(pool::NAME_FAMILIES),
        key_family: random.below(pool::KEY_FAMILIES),
        one_recorded_key_in: 2,
        first_clock: 0,
        step: 50_000,
        one_deletion_in: 3,
        one_start_in: 100,
        one_break_in: 4,
        one_expired_in: 8,
        one_revoked_in: 8,
    }
}
