//! Whole minutes since 1970, a kind of number of their own.

/// A moment in minutes since 1970, or a span of minutes.
#[derive(Debug, Clone, Copy, PartialEq, Eq, PartialOrd, Ord)]
pub struct Minutes(u32);

impl Minutes {
    pub const ZERO: Minutes = Minutes(0);

    /// A pin is active for 30 days at most.
    pub const LONGEST_ACTIVE_PERIOD: Minutes = Minutes(43_200);

    /// The last clock to which the longest active period can be added
    /// within 32 bits.
    pub const LAST_CLOCK: Minutes = Minutes(u32::MAX - Minutes::LONGEST_ACTIVE_PERIOD.0);

    /// A caller's clock, if it is not above the limit.
    pub fn from_clock(clock: u64) -> Option<Minutes> {
        let minutes = Minutes(u32::try_from(clock).ok()?);
        (minutes <= Minutes::LAST_CLOCK).then_some(minutes)
    }

    /// A four-byte field, which may hold any value.
    pub fn from_field(bytes: [u8; 4]) -> Minutes {
        Minutes(u32::from_be_bytes(bytes))
    }

    pub fn to_field(self) -> [u8; 4] {
        self.0.to_be_bytes()
    }

    pub fn value(self) -> u32 {
        self.0
    }

    /// Exact for every clock and every span up to the longest active period.
    pub fn plus(self, span: Minutes) -> Minutes {
        Minutes(self.0.saturating_add(span.0))
    }

    /// The span from `initial` to this clock. It is never negative: a sound
    /// table has initial at most latest, and refusal 14 has passed. A clock
    /// before initial is a fault of the program and panics.
    pub fn since(self, initial: Minutes) -> Minutes {
        let span = self.0.checked_sub(initial.0);
        Minutes(span.expect("a sound table has initial at most latest, and refusal 14 has passed"))
    }

    /// The end of the active period of a pin made at `initial` and seen now.
    pub fn active_period_end(self, initial: Minutes) -> Minutes {
        self.plus(self.since(initial).min(Minutes::LONGEST_ACTIVE_PERIOD))
    }
}
