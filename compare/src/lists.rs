//! Whole lists of calls of edition one from an empty table.

pub(crate) mod ages;
pub(crate) mod aside;
pub(crate) mod disabled;
pub(crate) mod expired;
pub(crate) mod spellings;

use crate::area::{Area, KEY_SLOTS, NAME_SLOTS};
use crate::both;
use crate::call::{Answer, Call, Connection};
use crate::choices::{Choices, Mix};
use crate::random::Random;
use crate::tally::Tally;
use ages::Ages;
use disabled::Disabled;
use expired::Expired;
use spellings::Spellings;
use tack::extension::Extension;

/// What the lists have met so far.
#[derive(Default)]
pub struct Lists {
    numbers: Tally,
    spellings: Spellings,
    room: Room,
    ages: Ages,
    expired: Expired,
    disabled: Disabled,
}

/// How often a pin found a full table.
#[derive(Default)]
struct Room {
    names_full: u64,
    keys_full: u64,
    /// The name had a record, whose key stays because another name is on it.
    old_key_stays: u64,
    /// The name's old key made room for the new one.
    old_key_goes: u64,
}

impl Room {
    fn add(&mut self, before: &Area, connection: &Connection, answer: &Answer, after: &Area) {
        let recorded = before.find_name(&connection.name).is_some();
        if answer.no_room {
            match recorded {
                true => self.old_key_stays += 1,
                false if before.used_names().len() == NAME_SLOTS => self.names_full += 1,
                false => self.keys_full += 1,
            }
        } else if recorded
            && before.used_keys().len() == KEY_SLOTS
            && is_new_key(before, connection, after)
        {
            self.old_key_goes += 1;
        }
    }

    fn report(&self) -> Result<(), String> {
        println!(
            "no room: {} for a name, {} for a key, {} for a key since the old one stays; {} times the old key made room",
            self.names_full, self.keys_full, self.old_key_stays, self.old_key_goes
        );
        let all = [
            self.names_full,
            self.keys_full,
            self.old_key_stays,
            self.old_key_goes,
        ];
        all_came("a kind of room", &all)
    }
}

/// An error where one of the counts is 0.
pub(crate) fn all_came(what: &str, counts: &[u64]) -> Result<(), String> {
    match counts.contains(&0) {
        true => Err(format!("{what} never came")),
        false => Ok(()),
    }
}

/// Whether the connection's tack has a key that was recorded by it.
fn is_new_key(before: &Area, connection: &Connection, after: &Area) -> bool {
    let extension = Extension::read(&connection.extension).ok();
    let key = extension.and_then(|extension| Some(extension.tack()?.public_key()));
    key.is_some_and(|key| before.find_key(key).is_none() && after.find_key(key).is_some())
}

impl Lists {
    /// One list, by one mix.
    pub fn list(&mut self, random: &mut Random) -> Result<u64, String> {
        let (mix, length) = Mix::of_list(random);
        let mut area = Area::empty();
        let mut calls = 0;
        while calls < length {
            let call = Choices::new(&mix, &area, random).call();
            if random.one_in(25) {
                self.call(&mut aside::changed(&area, random), &call)?;
                calls += 1;
            }
            let before = area.clone();
            let answer = self.call(&mut area.bytes, &call)?;
            if let Call::Judge(connection) = &call {
                self.room.add(&before, connection, &answer, &area);
                self.ages.add(&before, connection, &answer)?;
            }
            self.expired
                .add(&before, &call, &answer, &area)
                .and_then(|()| self.disabled.add(&before, &call, &answer, &area))
                .map_err(|problem| format!("both agree, but {problem}: {call:02x?}"))?;
            calls += 1;
        }
        self.spellings.end_list();
        self.expired.end_list();
        self.disabled.end_list();
        Ok(calls)
    }

    fn call(&mut self, table: &mut [u8], call: &Call) -> Result<Answer, String> {
        let answer = both::call(table, call)?;
        self.numbers.add(answer.number);
        self.spellings.add(call, answer.number);
        Ok(answer)
    }

    /// The verdict: every number, every spelling, every kind of room, every age of a pin, every kind of expired tack and every kind
    /// of record that is made or not by a call's choice came.
    pub fn finish(&self) -> Result<(), String> {
        let numbers: Vec<u8> = (0..=7).chain(10..=23).collect();
        self.numbers.report("calls of lists", &numbers)?;
        let named: Vec<u8> = (0..=6).chain(10..=23).collect();
        self.spellings.report("calls of lists", &named)?;
        self.room.report()?;
        self.ages.report("pins")?;
        self.expired.report()?;
        self.disabled.report()
    }
}
