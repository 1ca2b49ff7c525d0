//! Random calls of either edition, and connections of edition two.

use super::Choices;
use crate::area::{other, Key};
use crate::call::{Call, ConnectionTwo};
use crate::wire::{self, Tack};
use tack::table::Edition;

impl Choices<'_> {
    /// A call of either edition.
    pub fn call_of_either(&mut self) -> Call {
        if self.random.one_in(self.mix.one_start_in) {
            self.start()
        } else if self.random.one_in(self.mix.one_deletion_in) {
            self.deletion()
        } else if self.random.one_in(6) {
            let (name, second) = (self.name(), self.random.one_in(2));
            self.inspection_of_record(name, second)
        } else {
            let own = self.area.edition();
            match self.random.one_in(20) {
                true => self.judgement_by(other(own)),
                false => self.judgement_by(own),
            }
        }
    }

    /// Starting for either edition.
    pub fn start(&mut self) -> Call {
        Call::Start(*self.random.pick(&[Edition::One, Edition::Two]))
    }

    pub fn judgement_by(&mut self, edition: Edition) -> Call {
        match edition {
            Edition::One => self.judgement(),
            Edition::Two => Call::JudgeTwo(self.connection_two()),
        }
    }

    fn connection_two(&mut self) -> ConnectionTwo {
        let name = self.name();
        let clock = self.clock(&name);
        let keys = self.keys_shown(&name);
        let tacks: Vec<Tack> = keys.iter().map(|&key| self.tack_two(key, clock)).collect();
        ConnectionTwo {
            clock,
            name,
            extension_came: !self.random.one_in(10),
            extension: self.extension_two(&tacks),
            hash: self.hash(),
            handshake_finished: !self.is_wrong(),
            keys_are_points: self.answers(tacks.len()),
            signatures_correct: self.answers(tacks.len()),
        }
    }

    /// One key or two, often those of the name's own pins; now and then one key twice.
    fn keys_shown(&mut self, name: &[u8]) -> Vec<Key> {
        let pins = self.area.pins_of(name).into_iter();
        let mut own: Vec<Key> = pins.map(|pin| pin.key).collect();
        let first = self.own_key_or_any(&own);
        own.retain(|key| *key != first);
        let second = match self.is_wrong() {
            true => first,
            false => self.own_key_or_any(&own),
        };
        // Where there are few keys it is often the same.
        match self.random.one_in(3) || (first == second && self.random.one_in(2)) {
            true => vec![first],
            false => vec![first, second],
        }
    }

    fn own_key_or_any(&mut self, own: &[Key]) -> Key {
        match own.is_empty() || self.random.one_in(6) {
            true => self.key(),
            false => *self.random.pick(own),
        }
    }

    /// Generations around the floor and an expiration around the clock, at which a tack of edition two has expired.
    fn tack_two(&mut self, key: Key, clock: u64) -> Tack {
        let (min_generation, generation) = self.generations(&key);
        let clock = u32::try_from(clock).unwrap_or(u32::MAX);
        // Of two tacks either is the one that has expired.
        let is_expired = self.is_wrong() || (self.is_expired && self.random.one_in(2));
        let expiration = match is_expired {
            true => *self
                .random
                .pick(&[0, clock.saturating_sub(1), clock, clock]),
            false => *self.random.pick(&[clock.saturating_add(1), u32::MAX]),
        };
        Tack {
            key,
            min_generation,
            generation,
            expiration,
        }
    }

    /// Each tack mostly enabled; now and then another target hash in one, or malformed.
    fn extension_two(&mut self, tacks: &[Tack]) -> Vec<u8> {
        let flags = (0..tacks.len()).fold(0, |flags, tack| {
            flags | u8::from(!self.random.one_in(4)) << tack
        });
        let mut bytes = wire::extension_two(tacks, flags);
        if self.is_wrong() {
            let tack = self.random.below(tacks.len());
            let at = wire::target_hash_in_two(tack) + self.random.below(32);
            bytes[at] ^= 1 << self.random.below(8);
        }
        if self.is_wrong() {
            self.make_malformed(&mut bytes, tacks);
        }
        bytes
    }

    /// Cut, lengthened, with the length or the flags changed, or of edition one. Other flags may be as good.
    fn make_malformed(&mut self, bytes: &mut Vec<u8>, tacks: &[Tack]) {
        let last = bytes.len() - 1;
        match self.random.below(4) {
            0 => bytes.truncate(self.random.below(last + 1)),
            1 => bytes.push(self.random.byte()),
            2 => *bytes = wire::extension(tacks.first(), &[], 1),
            _ => {
                let byte = self.random.byte();
                bytes[*self.random.pick(&[0, 1, last, last])] = *self.random.pick(&[2, 4, byte]);
            }
        }
    }

    /// Bits beyond the tacks are to be ignored.
    fn answers(&mut self, tacks: usize) -> u8 {
        let exactly = (1 << tacks) - 1;
        let more = exactly | self.random.byte();
        let correct = *self.random.pick(&[exactly, 0xff, more]);
        match self.is_wrong() {
            true => correct & !(1 << self.random.below(tacks)),
            false => correct,
        }
    }
}
