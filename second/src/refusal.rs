//! The refusals that both editions share, before the extension is looked at.

use crate::answer::{
    CLOCK_ABOVE_LIMIT, CLOCK_BEFORE_LATEST, HANDSHAKE_NOT_FINISHED, NAME_MALFORMED,
    TABLE_OF_OTHER_EDITION,
};
use crate::edition::Edition;
use crate::minutes::Minutes;
use crate::name::FoldedName;
use crate::pins::PinTable;

/// The folded name and the clock of a call on a sound table, or the refusal:
/// "judging for the other edition is 27, after 11", and then 12 to 15.
pub(crate) fn admit(
    table: &PinTable,
    edition: Edition,
    name: &[u8],
    clock: u64,
    handshake_finished: bool,
) -> Result<(FoldedName, Minutes), u8> {
    refuse_if(table.edition() != edition, TABLE_OF_OTHER_EDITION)?;
    let name = FoldedName::of(name).ok_or(NAME_MALFORMED)?;
    let clock = Minutes::from_clock(clock).ok_or(CLOCK_ABOVE_LIMIT)?;
    refuse_if(clock < table.latest(), CLOCK_BEFORE_LATEST)?;
    refuse_if(!handshake_finished, HANDSHAKE_NOT_FINISHED)?;
    Ok((name, clock))
}

pub(crate) fn refuse_if(applies: bool, number: u8) -> Result<(), u8> {
    if applies {
        Err(number)
    } else {
        Ok(())
    }
}
