//! Random calls on a given table, chosen so that they meet its records and edges.

mod generations;
mod two;

use crate::area::{Area, Key, Record, LIMIT, LONGEST, NAME_SLOTS};
use crate::call::{Call, Connection};
use crate::pool;
use crate::random::Random;
use crate::spelling;
use crate::wire::{self, Tack, HASH};
use tack::table::Edition;

/// How the calls on a table are mixed.
#[derive(Clone)]
pub struct Mix {
    pub names: usize,
    pub keys: usize,
    pub name_family: usize,
    pub key_family: usize,
    /// So often a key is one of the recorded.
    pub one_recorded_key_in: usize,
    /// The first clock of an empty table.
    pub first_clock: u32,
    /// The clock moves on by so many minutes at most.
    pub step: u32,
    pub one_deletion_in: usize,
    pub one_start_in: usize,
    pub one_break_in: usize,
    /// So often a call is chosen for its expired tack.
    pub one_expired_in: usize,
    /// So often a generation is one below the floor, which an expired tack may have raised.
    pub one_revoked_in: usize,
}

impl Mix {
    /// A mix, of few names and keys, which meet, or of more than there are slots, and the number of calls in its list.
    pub fn of_list(random: &mut Random) -> (Mix, u64) {
        let step = *random.pick(&[1, 60, 60, 1_000, 1_000, 50_000]);
        let any = random.up_to(LIMIT - 300 * step);
        let first_clocks = [
            0,
            1,
            1_000,
            any,
            any,
            LIMIT - 300 * step,
            LIMIT - step,
            LIMIT,
        ];
        let few = Mix {
            names: 1 + random.below(6),
            keys: 1 + random.below(5),
            name_family: random.below(pool::NAME_FAMILIES),
            key_family: random.below(pool::KEY_FAMILIES),
            one_recorded_key_in: 3,
            first_clock: *random.pick(&first_clocks),
            step,
            one_deletion_in: 12,
            one_start_in: 100,
            one_break_in: 4,
            one_expired_in: 6,
            one_revoked_in: 6,
        };
        // The name slots run out first.
        let many_names = Mix {
            names: 200,
            keys: 80,
            one_deletion_in: 60,
            one_start_in: 5_000,
            one_break_in: 300,
            one_expired_in: 40,
            one_revoked_in: 100,
            ..few
        };
        // The key slots do.
        let many_keys = Mix {
            names: 126,
            keys: 250,
            one_recorded_key_in: 10,
            one_break_in: 800,
            ..many_names
        };
        match random.below(4) {
            0 => (many_names, 1_200),
            1 => (many_keys, 1_200),
            _ => (few, 300),
        }
    }
}

/// Chooses one call for a sound table.
pub struct Choices<'a> {
    mix: &'a Mix,
    area: &'a Area,
    random: &'a mut Random,
    /// The tack has expired, and hardly anything else is wrong, so that 23 is the number and a floor may rise.
    is_expired: bool,
    /// Each thing that can be wrong with a call is wrong once in so many times.
    one_wrong_in: usize,
}

impl<'a> Choices<'a> {
    /// Most calls have one thing wrong at most; some have many, which shows the refusals' order.
    pub fn new(mix: &'a Mix, area: &'a Area, random: &'a mut Random) -> Choices<'a> {
        let is_expired = random.one_in(mix.one_expired_in);
        let one_wrong_in = match is_expired {
            true => 400,
            false => *random.pick(&[3, 6, 40, 40, 400, 400, 400, 400]),
        };
        Choices {
            mix,
            area,
            random,
            is_expired,
            one_wrong_in,
        }
    }

    /// A call of edition one.
    pub fn call(&mut self) -> Call {
        if self.random.one_in(self.mix.one_start_in) {
            Call::Start(Edition::One)
        } else if self.random.one_in(self.mix.one_deletion_in) {
            self.deletion()
        } else if self.random.one_in(6) {
            self.inspection()
        } else {
            self.judgement()
        }
    }

    pub fn deletion(&mut self) -> Call {
        Call::Delete { name: self.name() }
    }

    pub fn inspection(&mut self) -> Call {
        let name = self.name();
        self.inspection_of(name)
    }

    /// Inspection of the name's record, in edition two of the first or the second.
    pub fn inspection_of(&mut self, name: Vec<u8>) -> Call {
        let second = self.area.edition() == Edition::Two && self.random.one_in(2);
        self.inspection_of_record(name, second)
    }

    fn inspection_of_record(&mut self, name: Vec<u8>, second: bool) -> Call {
        let clock = match self.random.below(4) {
            0 => u64::from(self.random.up_to(LIMIT)),
            1 => *self.random.pick(&[0, u64::from(LIMIT)]),
            _ => self.clock(&name),
        };
        Call::Inspect {
            name,
            clock,
            second,
        }
    }

    /// Judging with the yes or without it, chosen anew for each call.
    pub fn judgement(&mut self) -> Call {
        Call::Judge(Connection {
            learn_disabled: self.random.one_in(2),
            ..self.connection()
        })
    }

    /// With the yes and no choice about it: nights are made of these connections too, and `replay` gives it in each call.
    pub fn connection(&mut self) -> Connection {
        let name = self.name();
        let clock = self.clock(&name);
        let tack = (!self.random.one_in(6)).then(|| self.tack(&name, clock));
        let breaks = self.breaks(tack.as_ref());
        let activation = u8::from(!self.random.one_in(3));
        let extension = wire::extension(tack.as_ref(), &breaks, activation);
        Connection {
            clock,
            name,
            extension_came: !self.random.one_in(10),
            extension: self.perhaps_malformed(extension),
            hash: self.hash(),
            handshake_finished: !self.is_wrong(),
            key_is_point: !self.is_wrong(),
            signature_correct: !self.is_wrong(),
            breaks_correct: self.breaks_correct(breaks.len()),
            learn_disabled: true,
        }
    }

    fn is_wrong(&mut self) -> bool {
        self.random.one_in(self.one_wrong_in)
    }

    /// A recorded name, more often in a full table, one of the pool, or a malformed one; in any spelling.
    fn name(&mut self) -> Vec<u8> {
        let used = self.area.used_names();
        let mut name = if self.random.below(2 * NAME_SLOTS) < used.len() {
            self.area.name(*self.random.pick(&used)).to_vec()
        } else {
            let number = self.random.below(self.mix.names);
            pool::name(self.mix.name_family, number)
        };
        if self.is_wrong() {
            match self.random.below(5) {
                0 => name.clear(),
                1 => name.push(b'.'),
                2 => name.resize(254, b'a'),
                3 => name[0] = b'-',
                _ => name[0] = *self.random.pick(pool::BESIDE_LETTERS),
            }
        }
        spelling::any(name, self.random)
    }

    fn clock(&mut self, name: &[u8]) -> u64 {
        let latest = self.area.latest();
        if self.is_wrong() {
            let above = [1 << 32, (1 << 32) + u64::from(latest), u64::MAX];
            return match self.random.below(3) {
                0 => *self.random.pick(&above),
                1 => u64::from(u32::MAX),
                _ => u64::from(LIMIT) + 1,
            };
        }
        if latest > 0 && self.is_wrong() {
            let any = self.random.up_to(latest - 1);
            return u64::from(*self.random.pick(&[0, any, latest - 1, latest - 1]));
        }
        u64::from(self.later_clock(name))
    }

    /// A clock from latest on: at once, a little later, or now and then where the name's pin ends or is full grown.
    fn later_clock(&mut self, name: &[u8]) -> u32 {
        let latest = self.area.latest();
        let step = self.random.up_to(self.mix.step);
        let clock = match self.record_of(name) {
            _ if latest == 0 => self.mix.first_clock.saturating_add(step),
            Some(record) if self.random.one_in(8) => {
                let full_grown = record.initial.saturating_add(LONGEST);
                let edge = record.end.filter(|_| !self.random.one_in(4));
                let around = edge.unwrap_or(full_grown).saturating_sub(1);
                around.saturating_add(self.random.up_to(2))
            }
            _ if self.random.one_in(3) => latest,
            _ => latest.saturating_add(step),
        };
        clock.clamp(latest, LIMIT)
    }

    /// A record of the name, either where it has two.
    fn record_of(&mut self, name: &[u8]) -> Option<Record> {
        match self.area.pins_of(name)[..] {
            [first, second] => Some(self.random.pick(&[first, second]).record),
            [pin] => Some(pin.record),
            _ => None,
        }
    }

    /// Often the key of the name's own pin, with generations around the floor and an expiration around the clock.
    fn tack(&mut self, name: &[u8], clock: u64) -> Tack {
        let key = match self.area.find_name(name) {
            Some(slot) if !self.random.one_in(4) => self.area.key(self.area.record(slot).key_slot),
            _ => self.key(),
        };
        let (min_generation, generation) = self.generations(&key);
        let clock = u32::try_from(clock).unwrap_or(u32::MAX);
        let expiration = match self.is_expired || self.is_wrong() {
            true => *self.random.pick(&[0, clock.saturating_sub(1)]),
            false => *self
                .random
                .pick(&[clock, clock.saturating_add(1), u32::MAX, u32::MAX]),
        };
        Tack {
            key,
            min_generation,
            generation,
            expiration,
        }
    }

    /// A recorded key, or one of the pool.
    fn key(&mut self) -> Key {
        let used = self.area.used_keys();
        if !used.is_empty() && self.random.one_in(self.mix.one_recorded_key_in) {
            return self.area.key(*self.random.pick(&used));
        }
        let number = self.random.below(self.mix.keys);
        pool::key(self.mix.key_family, number)
    }

    /// Recorded keys, unrecorded ones, the tack's own, one twice.
    fn breaks(&mut self, tack: Option<&Tack>) -> Vec<Key> {
        let one_break_in = match self.is_expired {
            // They do not act, so that a full table stays full.
            true => 2,
            false => self.mix.one_break_in,
        };
        if !self.random.one_in(one_break_in) {
            return vec![];
        }
        let count = *self.random.pick(&[1, 1, 1, 2, 3, 7, 8]);
        let mut breaks: Vec<Key> = (0..count).map(|_| self.key()).collect();
        if self.random.one_in(3) {
            breaks[count - 1] = breaks[0];
        }
        match tack {
            Some(tack) if self.random.one_in(4) => breaks[0] = tack.key,
            _ => {}
        }
        breaks
    }

    /// Bits beyond the break signatures are to be ignored.
    fn breaks_correct(&mut self, count: usize) -> u8 {
        let exactly = ((1u16 << count) - 1) as u8;
        let more = exactly | self.random.byte();
        let correct = *self.random.pick(&[exactly, 0xff, more]);
        // Break signatures are rare, so they are incorrect more often.
        if count > 0 && (self.is_wrong() || self.random.one_in(10)) {
            let any = self.random.below(count);
            return correct & !(1 << *self.random.pick(&[0, any, count - 1]));
        }
        correct
    }

    fn hash(&mut self) -> Vec<u8> {
        let mut hash = HASH.to_vec();
        if self.is_wrong() {
            match self.random.below(4) {
                0 => hash.truncate(31),
                1 => hash.push(HASH[0]),
                2 => hash.clear(),
                _ => hash[self.random.below(32)] ^= 1 << self.random.below(8),
            }
        }
        hash
    }

    /// Cut, lengthened, or with one of the lengths or the activation changed.
    fn perhaps_malformed(&mut self, mut bytes: Vec<u8>) -> Vec<u8> {
        if self.is_wrong() {
            let (breaks, last) = (usize::from(bytes[0]) + 1, bytes.len() - 1);
            match self.random.below(3) {
                0 => bytes.truncate(self.random.below(last + 1)),
                1 => bytes.push(self.random.byte()),
                _ => {
                    let at = *self.random.pick(&[0, breaks, breaks + 1, last]);
                    bytes[at] = self.random.byte();
                }
            }
        }
        bytes
    }
}

#[cfg(test)]
mod tests {
    use super::*;

    /// Of 200 connections by the table of a list.
    fn with_the_yes(mut chosen: impl FnMut(&mut Choices) -> Connection) -> usize {
        let mut random = Random::new(1);
        let (mix, _) = Mix::of_list(&mut random);
        let area = Area::empty();
        let connections = (0..200).map(|_| chosen(&mut Choices::new(&mix, &area, &mut random)));
        connections.filter(|made| made.learn_disabled).count()
    }

    #[test]
    fn only_a_list_chooses_whether_to_give_the_yes() {
        let of_lists = with_the_yes(|choices| match choices.judgement() {
            Call::Judge(connection) => connection,
            other => panic!("{other:?} is no judging of edition one"),
        });
        assert!((60..=140).contains(&of_lists), "{of_lists} of 200");
        assert_eq!(with_the_yes(|choices| choices.connection()), 200);
    }
}
