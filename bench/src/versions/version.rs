//! A version of the proved program and library, or the second program, and what is measured of it.

use super::line::Line;
use super::table::Table;
use crate::program::{lent_replay, Program};
use compare::nights::program;
use std::path::{Path, PathBuf};

pub struct Version {
    pub name: &'static str,
    replay: PathBuf,
    lent_replay: PathBuf,
    /// The words of `lent_replay` for the soundness check and for `judge`.
    check: &'static str,
    judge: &'static str,
}

impl Version {
    /// The programs of an earlier version, in one folder.
    pub fn before(folder: &Path) -> Version {
        Version {
            name: "before",
            replay: folder.join("replay"),
            lent_replay: folder.join("lent_replay"),
            check: "check",
            judge: "judge",
        }
    }

    pub fn after() -> Result<Version, String> {
        Ok(Version {
            name: "after",
            replay: program::proved()?,
            lent_replay: lent_replay()?,
            check: "check",
            judge: "judge",
        })
    }

    pub fn second() -> Result<Version, String> {
        Ok(Version {
            name: "second",
            replay: program::second()?,
            lent_replay: lent_replay()?,
            check: "second-check",
            judge: "second-judge",
        })
    }

    pub fn checking<'a>(&self, table: &'a Table) -> Line<'a> {
        let name = format!("soundness check alone, {}", self.name);
        self.part(&name, self.check, table)
    }

    pub fn judging<'a>(&self, table: &'a Table) -> Line<'a> {
        let name = format!("judge on lent bytes, {}", self.name);
        Line::judging(name, Program::with(&self.lent_replay, self.judge), table)
    }

    pub fn replaying<'a>(&self, table: &'a Table) -> Line<'a> {
        let name = format!("replay, {}", self.name);
        Line::judging(name, Program::at(self.replay.clone()), table)
    }

    /// A part of each call alone, by the word of `lent_replay`.
    pub fn part<'a>(&self, name: &str, word: &'static str, table: &'a Table) -> Line<'a> {
        Line::part(name, Program::with(&self.lent_replay, word), table)
    }
}
