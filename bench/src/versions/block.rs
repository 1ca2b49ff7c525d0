//! What is measured on one table: the versions' soundness checks, their `judge` on lent bytes and their `replay`.

use super::line::Line;
use super::table::Table;
use super::version::Version;
use std::iter;

pub struct Block<'a> {
    pub table: &'a Table,
    read: Line<'a>,
    checks: [Line<'a>; 3],
    judges: [Line<'a>; 3],
    replays: [Line<'a>; 3],
    /// It is in every other line but those of `replay`.
    nothing: Line<'a>,
}

impl<'a> Block<'a> {
    /// Of the version before, the one after, and the second program.
    pub fn of(table: &'a Table, versions: &[Version; 3]) -> Block<'a> {
        let [_, after, _] = versions;
        Block {
            table,
            read: after.part("bare read of the area", "read", table),
            checks: versions.each_ref().map(|version| version.checking(table)),
            judges: versions.each_ref().map(|version| version.judging(table)),
            replays: versions.each_ref().map(|version| version.replaying(table)),
            nothing: after.part("night read and no call made", "nothing", table),
        }
    }

    pub fn lines(&self) -> impl Iterator<Item = &Line<'a>> {
        iter::once(&self.read)
            .chain(&self.checks)
            .chain(&self.judges)
            .chain(&self.replays)
            .chain([&self.nothing])
    }

    pub fn lines_mut(&mut self) -> impl Iterator<Item = &mut Line<'a>> {
        iter::once(&mut self.read)
            .chain(&mut self.checks)
            .chain(&mut self.judges)
            .chain(&mut self.replays)
            .chain([&mut self.nothing])
    }

    pub fn print(&self) {
        for line in self.lines() {
            line.cost.print(&line.name);
        }
    }
}
