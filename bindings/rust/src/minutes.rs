//! Clocks: whole minutes since 1970.

use std::fmt;
use std::time::{SystemTime, UNIX_EPOCH};

/// The time is before 1970, and no clock of the store.
#[derive(Debug, Clone, Copy, PartialEq, Eq, Hash)]
#[non_exhaustive]
pub struct BeforeEpoch;

impl fmt::Display for BeforeEpoch {
    fn fmt(&self, f: &mut fmt::Formatter<'_>) -> fmt::Result {
        f.write_str("the time is before 1970")
    }
}

impl std::error::Error for BeforeEpoch {}

/// The whole minutes since 1970, rounded down: what every call takes as its clock.
///
/// Clocks and expirations are minutes and not seconds, which the papers count among the trade's mistakes. Above 4,294,924,095
/// minutes the store refuses the call with 13, [`ClockAboveLimit`](crate::table::Refusal::ClockAboveLimit).
///
/// ```
/// use std::time::{Duration, SystemTime, UNIX_EPOCH};
/// use tack::minutes;
///
/// assert_eq!(minutes::since_1970(UNIX_EPOCH + Duration::from_secs(60_059)), Ok(1000));
/// assert!(minutes::since_1970(UNIX_EPOCH - Duration::from_nanos(1)).is_err());
///
/// let clock = minutes::since_1970(SystemTime::now())?;
/// # assert!(clock > 29_000_000);
/// # Ok::<(), minutes::BeforeEpoch>(())
/// ```
pub fn since_1970(time: SystemTime) -> Result<u64, BeforeEpoch> {
    match time.duration_since(UNIX_EPOCH) {
        Ok(since) => Ok(since.as_secs() / 60),
        Err(_) => Err(BeforeEpoch),
    }
}
