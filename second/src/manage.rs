//! Deletion and inspection of a name, and starting a table.
//!
//! None of these touches the latest clock, except that starting clears all.
//! Deletion and inspection are the same for tables of both editions.

use crate::answer::{
    alert_of, AREA_LENGTH_WRONG, CLOCK_ABOVE_LIMIT, DELETED, INSPECTED_WITHOUT_END,
    INSPECTED_WITH_END, NAME_MALFORMED, NAME_NOT_RECORDED, STARTED,
};
use crate::edition::Edition;
use crate::minutes::Minutes;
use crate::name::FoldedName;
use crate::pins::PinTable;
use crate::table::{parse, AREA_LENGTH};

#[derive(Debug, Clone, Copy, PartialEq, Eq)]
pub struct Outcome {
    pub number: u8,
    pub alert: u8,
}

impl Outcome {
    fn new(number: u8) -> Outcome {
        let alert = alert_of(number);
        Outcome { number, alert }
    }
}

/// A field without meaning for the number is 0.
#[derive(Debug, Clone, Copy, PartialEq, Eq)]
pub struct Inspection {
    pub number: u8,
    pub alert: u8,
    pub floor: u8,
    pub initial: u32,
    pub end: u32,
    /// End minus the given clock: negative after the end, 0 at it.
    pub minutes_left: i64,
}

impl Inspection {
    fn new(number: u8) -> Inspection {
        Inspection {
            number,
            alert: alert_of(number),
            floor: 0,
            initial: 0,
            end: 0,
            minutes_left: 0,
        }
    }
}

/// Removes a name's record, "both records" of edition two, and each key if no
/// name is left on it.
pub fn delete(area: &mut [u8], name: &[u8]) -> Outcome {
    let (mut table, name) = match open(area, name) {
        Ok(opened) => opened,
        Err(refusal) => return Outcome::new(refusal),
    };
    if !table.remove_name(&name) {
        return Outcome::new(NAME_NOT_RECORDED);
    }
    table.write(area);
    Outcome::new(DELETED)
}

/// Looks at "the first or the second" record of a name "by slot order"; the
/// clock may lie before the table's latest.
pub fn inspect(area: &[u8], name: &[u8], clock: u64, second: bool) -> Inspection {
    look(area, name, clock, second).unwrap_or_else(Inspection::new)
}

/// Clears the area, whatever it held, for the edition that is asked for.
pub fn start(area: &mut [u8], edition_two: bool) -> Outcome {
    if area.len() != AREA_LENGTH {
        return Outcome::new(AREA_LENGTH_WRONG);
    }
    PinTable::empty_in(Edition::of_answer(edition_two)).write(area);
    Outcome::new(STARTED)
}

/// The table and the folded name, or the refusals that deletion and inspection
/// share.
fn open(area: &[u8], name: &[u8]) -> Result<(PinTable, FoldedName), u8> {
    let table = parse(area).map_err(|damage| damage.number())?;
    let name = FoldedName::of(name).ok_or(NAME_MALFORMED)?;
    Ok((table, name))
}

fn look(area: &[u8], name: &[u8], clock: u64, second: bool) -> Result<Inspection, u8> {
    let (table, name) = open(area, name)?;
    let clock = Minutes::from_clock(clock).ok_or(CLOCK_ABOVE_LIMIT)?;
    let pin = table.pins_of(&name).nth(usize::from(second));
    let (name_record, key_record) = pin.ok_or(NAME_NOT_RECORDED)?;
    let inspection = match name_record.end {
        Some(end) => Inspection {
            end: end.value(),
            minutes_left: i64::from(end.value()) - i64::from(clock.value()),
            ..Inspection::new(INSPECTED_WITH_END)
        },
        None => Inspection::new(INSPECTED_WITHOUT_END),
    };
    Ok(Inspection {
        floor: key_record.floor,
        initial: name_record.initial.value(),
        ..inspection
    })
}
