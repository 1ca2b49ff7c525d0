//! How old a pin was when a call extended it.

use super::all_came;
use crate::area::{Area, LONGEST};
use crate::call::{Answer, Connection};
use std::cmp::Ordering;
use tack::extension::Extension;

/// What the lists have met so far, of calls that show the key of the name's own record with activation enabled.
#[derive(Default)]
pub struct Ages {
    none: u64,
    shorter: u64,
    thirty_days: u64,
    longer: u64,
    /// The clock was before initial.
    before_initial: u64,
}

impl Ages {
    /// An error where a clock before initial was answered with another number than 14.
    pub fn add(
        &mut self,
        area: &Area,
        connection: &Connection,
        answer: &Answer,
    ) -> Result<(), String> {
        match own_initial(area, connection) {
            Some(initial) => self.add_record(initial, connection.clock, answer.number),
            None => Ok(()),
        }
    }

    /// The same for a record of which that is known.
    pub fn add_record(&mut self, initial: u32, clock: u64, number: u8) -> Result<(), String> {
        match (clock.cmp(&u64::from(initial)), number) {
            (Ordering::Less, 14) => self.before_initial += 1,
            (Ordering::Less, number) => {
                return Err(format!("a clock before initial was answered {number}"));
            }
            (Ordering::Equal, 0..=2) => self.none += 1,
            (Ordering::Greater, 0..=2) => self.extended(clock - u64::from(initial)),
            _ => {}
        }
        Ok(())
    }

    fn extended(&mut self, age: u64) {
        match age.cmp(&u64::from(LONGEST)) {
            Ordering::Less => self.shorter += 1,
            Ordering::Equal => self.thirty_days += 1,
            Ordering::Greater => self.longer += 1,
        }
    }

    /// The verdict: every age came.
    pub fn report(&self, what: &str) -> Result<(), String> {
        println!(
            "{what} extended: {} in the minute of initial, {} less than thirty days after it, {} just then, {} later; {} times the clock was before it",
            self.none, self.shorter, self.thirty_days, self.longer, self.before_initial
        );
        let all = [
            self.none,
            self.shorter,
            self.thirty_days,
            self.longer,
            self.before_initial,
        ];
        all_came("an age of a pin", &all)
    }
}

/// The initial clock of the name's record, if the connection shows its key with activation enabled.
fn own_initial(area: &Area, connection: &Connection) -> Option<u32> {
    let bytes = connection.extension_came.then_some(&connection.extension)?;
    let extension = Extension::read(bytes).ok()?;
    let record = area.record(area.find_name(&connection.name)?);
    let shown = *extension.tack()?.public_key() == area.key(record.key_slot);
    (shown && extension.activation_enabled()).then_some(record.initial)
}
