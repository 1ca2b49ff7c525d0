//! The judge of edition one: one finished connection, a lent pin table, a
//! verdict.
//!
//! Every refusal but 23 comes before the first change, so it leaves the table as
//! it was. "An expired tack still revokes": 23 comes when the floor is raised,
//! and before any other change. "Don't learn from disabled servers": a new record
//! needs activation 1, or the call's explicit yes for the old way. The table is
//! lent as an area, or kept parsed by a caller with many calls.

use crate::answer::{
    alert_of, BREAK_SIGNATURE_INCORRECT, CONFIRMED, CONTRADICTED, EXPIRED, EXTENSION_MALFORMED,
    GENERATION_BELOW_FLOOR, GENERATION_BELOW_OWN_MINIMUM, KEY_NOT_A_POINT,
    TACK_SIGNATURE_INCORRECT, TARGET_HASH_UNEQUAL, UNPINNED,
};
use crate::edition::Edition;
use crate::extension::{Extension, Tack};
use crate::minutes::Minutes;
use crate::name::FoldedName;
use crate::pins::{NoRoom, PinTable};
use crate::refusal::{admit, refuse_if};
use crate::table::parse;

/// What the caller knows of the connection, and whether it asks for the old way.
/// Answers for absent things are ignored.
#[derive(Debug, Clone, Copy, PartialEq, Eq)]
pub struct Connection<'a> {
    pub clock: u64,
    /// As the caller spells it; it is judged in small letters.
    pub name: &'a [u8],
    pub extension: Option<&'a [u8]>,
    pub spki_sha256: &'a [u8],
    pub handshake_finished: bool,
    pub key_is_point: bool,
    pub signature_correct: bool,
    /// Bit i, the lowest being 0, says that break signature i is correct.
    pub breaks_correct: u8,
    /// The "explicit yes" by which a call asks "for the old way", in which
    /// creation does not look at activation. The default is no: "edition one
    /// makes a record only if activation is 1".
    pub learn_disabled: bool,
}

#[derive(Debug, Clone, Copy, PartialEq, Eq)]
pub struct Judgement {
    pub number: u8,
    pub alert: u8,
    pub no_room: bool,
}

impl Judgement {
    fn new(number: u8, no_room: bool) -> Judgement {
        let alert = alert_of(number);
        Judgement {
            number,
            alert,
            no_room,
        }
    }

    fn refusal(number: u8) -> Judgement {
        Judgement::new(number, false)
    }
}

pub fn judge(area: &mut [u8], connection: &Connection) -> Judgement {
    judge_area(area, connection).unwrap_or_else(Judgement::refusal)
}

/// The same by a table that stays parsed from call to call.
pub fn judge_kept(table: &mut PinTable, connection: &Connection) -> Judgement {
    decide(table, connection).unwrap_or_else(Judgement::refusal)
}

fn judge_area(area: &mut [u8], connection: &Connection) -> Result<Judgement, u8> {
    let mut table = parse(area).map_err(|damage| damage.number())?;
    let judgement = decide(&mut table, connection)?;
    table.write(area);
    Ok(judgement)
}

/// A judgement that may have changed the table, a verdict or 23; or the number
/// of a refusal that has not.
fn decide(table: &mut PinTable, connection: &Connection) -> Result<Judgement, u8> {
    let mut case = Case::admit(table, connection)?;
    // Document 000 "raises the floor before 5.3.3 looks at expiration".
    case.raise_floor();
    if case.is_expired() {
        return Ok(Judgement::refusal(EXPIRED));
    }
    let no_room = case.take_further_steps().is_err();
    Ok(Judgement::new(case.verdict(), no_room))
}

/// A connection that no refusal below 23 applies to, with the table it is
/// judged by.
struct Case<'a> {
    table: &'a mut PinTable,
    name: FoldedName,
    clock: Minutes,
    extension: Extension,
    learn_disabled: bool,
}

impl<'a> Case<'a> {
    /// The lowest number that applies is the refusal, 27 counting as next to 11.
    /// 23 is then the last in order, and not looked at here.
    fn admit(table: &'a mut PinTable, connection: &Connection) -> Result<Case<'a>, u8> {
        let (name, clock) = admit(
            table,
            Edition::One,
            connection.name,
            connection.clock,
            connection.handshake_finished,
        )?;
        let extension = match connection.extension {
            Some(bytes) => Extension::parse(bytes).ok_or(EXTENSION_MALFORMED)?,
            None => Extension::absent(),
        };
        let case = Case {
            table,
            name,
            clock,
            extension,
            learn_disabled: connection.learn_disabled,
        };
        case.check_breaks(connection.breaks_correct)?;
        if let Some(tack) = &case.extension.tack {
            case.check_tack(tack, connection)?;
        }
        Ok(case)
    }

    fn check_breaks(&self, correct: u8) -> Result<(), u8> {
        let count = self.extension.breaks.len();
        let all_correct = (0..count).all(|index| correct >> index & 1 == 1);
        refuse_if(!all_correct, BREAK_SIGNATURE_INCORRECT)
    }

    fn check_tack(&self, tack: &Tack, connection: &Connection) -> Result<(), u8> {
        refuse_if(!connection.key_is_point, KEY_NOT_A_POINT)?;
        let below_own_minimum = tack.generation < tack.min_generation;
        refuse_if(below_own_minimum, GENERATION_BELOW_OWN_MINIMUM)?;
        let hash_unequal = connection.spki_sha256 != tack.target_hash;
        refuse_if(hash_unequal, TARGET_HASH_UNEQUAL)?;
        refuse_if(!connection.signature_correct, TACK_SIGNATURE_INCORRECT)?;
        let revoked = self.table.revokes(&tack.public_key, tack.generation);
        refuse_if(revoked, GENERATION_BELOW_FLOOR)
    }

    /// The first step, for an expired tack too. A key without a record gets none.
    fn raise_floor(&mut self) {
        if let Some(tack) = &self.extension.tack {
            self.table
                .raise_floor(&tack.public_key, tack.min_generation);
        }
    }

    /// Without a tack nothing expires.
    fn is_expired(&self) -> bool {
        let tack = self.extension.tack.as_ref();
        tack.is_some_and(|tack| tack.expiration < self.clock)
    }

    /// The steps after the first, in the paper's order. Without room the call
    /// goes on, so that one tenant's scan cannot freeze the others.
    fn take_further_steps(&mut self) -> Result<(), NoRoom> {
        let room = self.learn_from_tack();
        for broken in &self.extension.breaks {
            self.table.remove_key(&broken.public_key);
        }
        self.table.set_latest(self.clock);
        room
    }

    fn learn_from_tack(&mut self) -> Result<(), NoRoom> {
        let Some(tack) = &self.extension.tack else {
            return Ok(());
        };
        let key = &tack.public_key;
        match self.table.pin_of(&self.name) {
            Some((_, key_record)) if key_record.key == *key => {
                if self.extension.activation {
                    self.table.activate(&self.name, key, self.clock);
                }
                Ok(())
            }
            Some((name_record, _)) if name_record.is_active(self.clock) => Ok(()),
            // "No room" is said only where this step "wants a record"; where it
            // does not, an inactive record stays as well.
            _ if !self.may_make_record() => Ok(()),
            _ => self
                .table
                .create(&self.name, key, tack.min_generation, self.clock),
        }
    }

    /// Only creation looks at the explicit yes; the other steps do not.
    fn may_make_record(&self) -> bool {
        self.extension.activation || self.learn_disabled
    }

    /// By the record that stands after the steps.
    fn verdict(&self) -> u8 {
        let shown = self.extension.tack.as_ref().map(|tack| tack.public_key);
        match self.table.pin_of(&self.name) {
            Some((name_record, key_record)) if name_record.is_active(self.clock) => {
                if shown == Some(key_record.key) {
                    CONFIRMED
                } else {
                    CONTRADICTED
                }
            }
            _ => UNPINNED,
        }
    }
}
