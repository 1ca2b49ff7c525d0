//! The judge of edition two: one finished connection with up to two tacks, a
//! lent pin table with up to two pins of a name, a verdict.
//!
//! All refusals come before the first change, so a refused call leaves the
//! table as it was. That is so for 23 as well: "there 23 raises no floor".

use crate::answer::{
    alert_of_two, CONFIRMED, CONTRADICTED, EXPIRED, EXTENSION_MALFORMED, GENERATION_BELOW_FLOOR,
    GENERATION_BELOW_OWN_MINIMUM, KEY_NOT_A_POINT, TACK_SIGNATURE_INCORRECT, TARGET_HASH_UNEQUAL,
    TWO_TACKS_WITH_ONE_KEY, UNPINNED,
};
use crate::edition::Edition;
use crate::extension::Tack;
use crate::extension_two::{self, ShownTack};
use crate::judge::Judgement;
use crate::minutes::Minutes;
use crate::name::FoldedName;
use crate::pins::{NoRoom, PinTable, MOST_PINS_OF_A_NAME};
use crate::records::PublicKey;
use crate::refusal::{admit, refuse_if};
use crate::table::parse;

/// What the caller knows of the connection. Answers for absent things are
/// ignored.
#[derive(Debug, Clone, Copy, PartialEq, Eq)]
pub struct ConnectionTwo<'a> {
    pub clock: u64,
    /// As the caller spells it; it is judged in small letters.
    pub name: &'a [u8],
    pub extension: Option<&'a [u8]>,
    pub spki_sha256: &'a [u8],
    pub handshake_finished: bool,
    /// Bit 0 says that the first tack's key is a P-256 point, bit 1 the second's.
    pub keys_are_points: u8,
    /// Bit 0 says that the first tack's signature is correct, bit 1 the second's.
    pub signatures_correct: u8,
}

pub fn judge_two(area: &mut [u8], connection: &ConnectionTwo) -> Judgement {
    judge_area(area, connection).unwrap_or_else(|refusal| judgement(refusal, false))
}

fn judgement(number: u8, no_room: bool) -> Judgement {
    let alert = alert_of_two(number);
    Judgement {
        number,
        alert,
        no_room,
    }
}

/// A verdict, or the number of the refusal.
fn judge_area(area: &mut [u8], connection: &ConnectionTwo) -> Result<Judgement, u8> {
    let mut table = parse(area).map_err(|damage| damage.number())?;
    let case = Case::admit(&table, connection)?;
    let judgement = case.take_steps(&mut table);
    table.write(area);
    Ok(judgement)
}

/// A connection that no refusal applies to.
struct Case {
    name: FoldedName,
    clock: Minutes,
    /// In order; none if no extension came.
    tacks: Vec<ShownTack>,
}

impl Case {
    fn admit(table: &PinTable, connection: &ConnectionTwo) -> Result<Case, u8> {
        let (name, clock) = admit(
            table,
            Edition::Two,
            connection.name,
            connection.clock,
            connection.handshake_finished,
        )?;
        let tacks = match connection.extension {
            Some(bytes) => extension_two::parse(bytes).ok_or(EXTENSION_MALFORMED)?,
            None => Vec::new(),
        };
        let case = Case { name, clock, tacks };
        case.check_tacks(table, connection)?;
        Ok(case)
    }

    /// "Then 24, two tacks with one key; then for each tack in order, each with
    /// its own answers from the caller, 18, 19, 23 [...], 20, 21; then 22 for
    /// either."
    fn check_tacks(&self, table: &PinTable, connection: &ConnectionTwo) -> Result<(), u8> {
        if let [first, second] = self.tacks.as_slice() {
            let one_key = first.tack.public_key == second.tack.public_key;
            refuse_if(one_key, TWO_TACKS_WITH_ONE_KEY)?;
        }
        for (index, shown) in self.tacks.iter().enumerate() {
            self.check_tack(index, &shown.tack, connection)?;
        }
        let is_revoked = |tack: &Tack| table.revokes(&tack.public_key, tack.generation);
        let revoked = self.tacks.iter().any(|shown| is_revoked(&shown.tack));
        refuse_if(revoked, GENERATION_BELOW_FLOOR)
    }

    /// 23 is "now given if expiration is at or below the clock".
    fn check_tack(&self, index: usize, tack: &Tack, connection: &ConnectionTwo) -> Result<(), u8> {
        let says_yes = |answers: u8| answers >> index & 1 == 1;
        refuse_if(!says_yes(connection.keys_are_points), KEY_NOT_A_POINT)?;
        let below_own_minimum = tack.generation < tack.min_generation;
        refuse_if(below_own_minimum, GENERATION_BELOW_OWN_MINIMUM)?;
        refuse_if(tack.expiration <= self.clock, EXPIRED)?;
        let hash_unequal = connection.spki_sha256 != tack.target_hash;
        refuse_if(hash_unequal, TARGET_HASH_UNEQUAL)?;
        let signature_correct = says_yes(connection.signatures_correct);
        refuse_if(!signature_correct, TACK_SIGNATURE_INCORRECT)
    }

    /// "After the floors are raised and latest set, the verdict falls." None of
    /// these looks at the flags.
    fn take_steps(&self, table: &mut PinTable) -> Judgement {
        for ShownTack { tack, .. } in &self.tacks {
            table.raise_floor(&tack.public_key, tack.min_generation);
        }
        table.set_latest(self.clock);
        let verdict = self.verdict(table);
        if verdict == CONTRADICTED {
            return judgement(verdict, false);
        }
        self.remove_pins(table);
        let no_room = self.learn(table);
        judgement(verdict, no_room)
    }

    /// "Contradicted if any active record has no matching tack, else confirmed
    /// if any is active, else unpinned."
    fn verdict(&self, table: &PinTable) -> u8 {
        let pins = table.pins_of(&self.name);
        let active = pins.filter(|(record, _)| record.is_active(self.clock));
        let keys: Vec<&PublicKey> = active.map(|(_, key_record)| &key_record.key).collect();
        if keys.iter().any(|key| self.matching(key).is_none()) {
            CONTRADICTED
        } else if !keys.is_empty() {
            CONFIRMED
        } else {
            UNPINNED
        }
    }

    /// The tack that shows the key.
    fn matching(&self, key: &PublicKey) -> Option<&ShownTack> {
        self.tacks
            .iter()
            .find(|shown| shown.tack.public_key == *key)
    }

    /// "Inactive records of the name with no matching enabled tack go, as do
    /// keys left without names." A disabled tack keeps no inactive record.
    fn remove_pins(&self, table: &mut PinTable) {
        table.retain_pins(&self.name, |record, key_record| {
            let matching = self.matching(&key_record.key);
            record.is_active(self.clock) || matching.is_some_and(|shown| shown.enabled)
        });
    }

    /// "Room is counted then, per tack; no room is yes if either lacks it." So
    /// the second tack is looked at even if the first found no room.
    fn learn(&self, table: &mut PinTable) -> bool {
        let mut no_room = false;
        for ShownTack { tack, .. } in self.tacks.iter().filter(|shown| shown.enabled) {
            no_room |= self.learn_from(tack, table).is_err();
        }
        no_room
    }

    /// "Extends its record by the same formula or makes one if the name has
    /// fewer than two."
    fn learn_from(&self, tack: &Tack, table: &mut PinTable) -> Result<(), NoRoom> {
        let key = &tack.public_key;
        let pins = table.pins_of(&self.name);
        let pinned: Vec<&PublicKey> = pins.map(|(_, key_record)| &key_record.key).collect();
        if pinned.contains(&key) {
            table.activate(&self.name, key, self.clock);
        } else if pinned.len() < MOST_PINS_OF_A_NAME {
            table.add(&self.name, key, tack.min_generation, self.clock)?;
        }
        Ok(())
    }
}
