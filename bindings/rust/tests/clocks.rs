//! Clocks from a `SystemTime`: rounded down to minutes, refused before 1970, and above the limit refused by the store.

mod common;

use common::{good, shown};
use std::time::{Duration, SystemTime, UNIX_EPOCH};
use tack::minutes;
use tack::table::{PinTable, Refusal};

const LIMIT: u64 = 4_294_924_095;

fn at(seconds: u64) -> SystemTime {
    UNIX_EPOCH + Duration::from_secs(seconds)
}

#[test]
fn a_minute_has_sixty_seconds() {
    for (seconds, clock) in [(0, 0), (59, 0), (60, 1), (119, 1), (60_059, 1000)] {
        assert_eq!(minutes::since_1970(at(seconds)), Ok(clock));
        let last = at(seconds) + Duration::from_nanos(999_999_999);
        assert_eq!(minutes::since_1970(last), Ok(clock));
    }
}

#[test]
fn before_1970_there_is_no_clock() {
    for before in [Duration::from_nanos(1), Duration::from_secs(86_400)] {
        assert!(minutes::since_1970(UNIX_EPOCH - before).is_err());
    }
}

#[test]
fn the_store_has_the_limit() {
    let third = shown(3, 3, u32::MAX);
    let silent = good(&third).without_extension();
    let judged = |seconds| {
        let clock = minutes::since_1970(at(seconds)).expect("after 1970");
        PinTable::new().judge(&silent.with_clock(clock))
    };
    assert!(judged(60 * LIMIT + 59).is_ok());
    let refused = judged(60 * LIMIT + 60).expect_err("it is refused");
    assert_eq!(refused.refusal(), Refusal::ClockAboveLimit);
}
