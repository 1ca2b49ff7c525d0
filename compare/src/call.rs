//! One call of the store, and its answer by either program.

mod answer;
mod connection;
mod connection_two;

pub use answer::Answer;
pub use connection::Connection;
pub use connection_two::ConnectionTwo;

use crate::spelling;
use tack::raw;
use tack::table::Edition;

/// The arguments of a call besides the table.
#[derive(Debug, Clone)]
pub enum Call {
    Judge(Connection),
    JudgeTwo(ConnectionTwo),
    Delete {
        name: Vec<u8>,
    },
    Inspect {
        name: Vec<u8>,
        clock: u64,
        /// The second record of the name, not the first.
        second: bool,
    },
    Start(Edition),
}

/// The program that makes a call.
#[derive(Debug, Clone, Copy)]
pub enum By {
    Proved,
    Second,
}

impl Call {
    pub fn by(&self, program: By, table: &mut [u8]) -> Answer {
        match program {
            By::Proved => self.proved(table),
            By::Second => self.second(table),
        }
    }

    fn proved(&self, table: &mut [u8]) -> Answer {
        match self {
            Call::Judge(connection) => raw::judge(table, &connection.for_proved()).into(),
            Call::JudgeTwo(connection) => raw::judge_two(table, &connection.for_proved()).into(),
            Call::Delete { name } => raw::delete(table, name).into(),
            Call::Inspect {
                name,
                clock,
                second,
            } => raw::inspect(table, name, *clock, *second).into(),
            Call::Start(edition) => raw::start(table, *edition == Edition::Two).into(),
        }
    }

    fn second(&self, table: &mut [u8]) -> Answer {
        match self {
            Call::Judge(connection) => second::judge(table, &connection.for_second()).into(),
            Call::JudgeTwo(connection) => second::judge_two(table, &connection.for_second()).into(),
            Call::Delete { name } => second::delete(table, name).into(),
            Call::Inspect {
                name,
                clock,
                second,
            } => second::inspect(table, name, *clock, *second).into(),
            Call::Start(edition) => second::start(table, *edition == Edition::Two).into(),
        }
    }

    /// The name that the call is about; starting is about none.
    pub fn name(&self) -> Option<&[u8]> {
        match self {
            Call::Judge(Connection { name, .. })
            | Call::JudgeTwo(ConnectionTwo { name, .. })
            | Call::Delete { name }
            | Call::Inspect { name, .. } => Some(name),
            Call::Start(_) => None,
        }
    }

    pub fn has_capital(&self) -> bool {
        self.name().is_some_and(spelling::has_capital)
    }

    /// The same call with its name in small letters.
    pub fn in_small_letters(&self) -> Call {
        let mut call = self.clone();
        match &mut call {
            Call::Judge(Connection { name, .. })
            | Call::JudgeTwo(ConnectionTwo { name, .. })
            | Call::Delete { name }
            | Call::Inspect { name, .. } => *name = spelling::small(name),
            Call::Start(_) => {}
        }
        call
    }
}
