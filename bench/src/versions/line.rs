//! A program on a table.

use super::cost::Cost;
use super::table::Table;
use crate::program::Program;
use std::path::Path;

/// A program, and what one of its calls on a table costs, once it is measured.
pub struct Line<'a> {
    pub name: String,
    program: Program,
    pub table: &'a Table,
    /// Whether its report must be that of the others on this table.
    pub judges: bool,
    pub cost: Cost,
}

impl<'a> Line<'a> {
    pub fn judging(name: impl Into<String>, program: Program, table: &'a Table) -> Line<'a> {
        Line {
            name: name.into(),
            program,
            table,
            judges: true,
            cost: Cost::default(),
        }
    }

    pub fn part(name: impl Into<String>, program: Program, table: &'a Table) -> Line<'a> {
        Line {
            judges: false,
            ..Line::judging(name, program, table)
        }
    }

    /// Of a call, without those that fill the table.
    pub fn count_instructions(&mut self) -> Result<(), String> {
        let Table { filling, whole, .. } = self.table;
        let before = self.program.instructions(&filling.path)? as f64;
        let all = self.program.instructions(&whole.path)? as f64;
        self.cost.instructions = (all - before) / self.table.calls() as f64;
        Ok(())
    }

    /// One more repeat, without the calls that fill the table. The report that is left is of all calls.
    pub fn time(&mut self, report: &Path) -> Result<(), String> {
        let Table { filling, whole, .. } = self.table;
        let before = self.program.replay(&filling.path, report)?.time;
        let all = self.program.replay(&whole.path, report)?.time;
        let seconds = all.as_secs_f64() - before.as_secs_f64();
        let microseconds = seconds * 1e6 / self.table.calls() as f64;
        self.cost.microseconds.push(microseconds);
        Ok(())
    }
}
