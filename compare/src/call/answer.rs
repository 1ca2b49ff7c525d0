//! Every field of every answer, by either program.

use tack::raw;

/// Every field of every answer; what a call does not answer stays 0.
#[derive(Debug, Clone, Copy, PartialEq, Eq, Default)]
pub struct Answer {
    pub number: u8,
    pub alert: u8,
    pub no_room: bool,
    pub floor: u8,
    pub initial: u32,
    pub end: u32,
    pub minutes_left: i64,
}

// Both programs answer with the same fields in types of their own.
macro_rules! answers {
    ($judgement:ty, $outcome:ty, $inspection:ty) => {
        impl From<$judgement> for Answer {
            fn from(judgement: $judgement) -> Answer {
                Answer {
                    number: judgement.number,
                    alert: judgement.alert,
                    no_room: judgement.no_room,
                    ..Answer::default()
                }
            }
        }

        impl From<$outcome> for Answer {
            fn from(outcome: $outcome) -> Answer {
                Answer {
                    number: outcome.number,
                    alert: outcome.alert,
                    ..Answer::default()
                }
            }
        }

        impl From<$inspection> for Answer {
            fn from(inspection: $inspection) -> Answer {
                Answer {
                    number: inspection.number,
                    alert: inspection.alert,
                    no_room: false,
                    floor: inspection.floor,
                    initial: inspection.initial,
                    end: inspection.end,
                    minutes_left: inspection.minutes_left,
                }
            }
        }
    };
}

answers!(raw::Judgement, raw::Outcome, raw::Inspection);
answers!(second::Judgement, second::Outcome, second::Inspection);
