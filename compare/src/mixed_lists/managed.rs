//! Deletion, inspection and starting in lists of both editions.

use crate::area::Area;
use crate::call::{Answer, Call};
use crate::kind_counts::{counted_kinds, KindCounts};
use tack::table::Edition;

counted_kinds! {
    /// A record that was looked for.
    Inspected, "inspections";
    FirstOfNone, "edition two, the first record of a name without any: 4";
    FirstWithoutEnd, "edition two, the first record: 5";
    FirstWithEnd, "edition two, the first record: 6";
    SecondOfNone, "edition two, the second record of a name without any: 4";
    SecondOfOne, "edition two, the second record of a name with one: 4";
    SecondWithoutEnd, "edition two, the second record: 5";
    SecondWithEnd, "edition two, the second record: 6";
    SecondInOne, "edition one, the second record of a recorded name: 4";
}

counted_kinds! {
    /// A name that was deleted, by its records and keys.
    Deleted, "deletions in edition two";
    NotRecorded, "no record: 4";
    OneRecord, "one record";
    BothKeysRemoved, "two records, both keys removed";
    FirstKeyLeft, "two records, the first key left to another name";
    SecondKeyLeft, "two records, the second key left to another name";
    BothKeysLeft, "two records, both keys left to other names";
}

counted_kinds! {
    /// A table with records that was started.
    Started, "tables with records that were started";
    OneAsOne, "edition one for edition one";
    OneAsTwo, "edition one for edition two";
    TwoAsOne, "edition two for edition one";
    TwoAsTwo, "edition two for edition two";
}

/// What the calls have met so far.
#[derive(Default)]
pub struct Managed {
    inspected: KindCounts<Inspected>,
    deleted: KindCounts<Deleted>,
    started: KindCounts<Started>,
}

impl Managed {
    /// A call on a sound table.
    pub fn add(&mut self, before: &Area, call: &Call, answer: &Answer, after: &Area) {
        match call {
            Call::Inspect { name, second, .. } => {
                let records = before.slots_of(name).len();
                if let Some(kind) = inspected(before.edition(), *second, records, answer.number) {
                    self.inspected.add(kind);
                }
            }
            Call::Delete { name } if before.edition() == Edition::Two => {
                if let Some(kind) = deleted(before, name, answer.number, after) {
                    self.deleted.add(kind);
                }
            }
            Call::Start(edition) if !before.used_names().is_empty() => {
                self.started.add(started(before.edition(), *edition));
            }
            _ => {}
        }
    }

    /// The verdict: every kind of each came.
    pub fn report(&self) -> Result<(), String> {
        self.inspected.report()?;
        self.deleted.report()?;
        self.started.report()
    }
}

fn inspected(edition: Edition, second: bool, records: usize, number: u8) -> Option<Inspected> {
    Some(match (edition, second, number) {
        (Edition::Two, false, 4) => Inspected::FirstOfNone,
        (Edition::Two, false, 5) => Inspected::FirstWithoutEnd,
        (Edition::Two, false, 6) => Inspected::FirstWithEnd,
        (Edition::Two, true, 4) if records == 0 => Inspected::SecondOfNone,
        (Edition::Two, true, 4) => Inspected::SecondOfOne,
        (Edition::Two, true, 5) => Inspected::SecondWithoutEnd,
        (Edition::Two, true, 6) => Inspected::SecondWithEnd,
        (Edition::One, true, 4) if records == 1 => Inspected::SecondInOne,
        _ => return None,
    })
}

fn deleted(before: &Area, name: &[u8], number: u8, after: &Area) -> Option<Deleted> {
    let pins = before.pins_of(name);
    let is_left: Vec<bool> = pins
        .iter()
        .map(|pin| after.find_key(&pin.key).is_some())
        .collect();
    Some(match (number, &is_left[..]) {
        (4, _) => Deleted::NotRecorded,
        (3, [_]) => Deleted::OneRecord,
        (3, [false, false]) => Deleted::BothKeysRemoved,
        (3, [true, false]) => Deleted::FirstKeyLeft,
        (3, [false, true]) => Deleted::SecondKeyLeft,
        (3, [true, true]) => Deleted::BothKeysLeft,
        _ => return None,
    })
}

fn started(before: Edition, after: Edition) -> Started {
    match (before, after) {
        (Edition::One, Edition::One) => Started::OneAsOne,
        (Edition::One, Edition::Two) => Started::OneAsTwo,
        (Edition::Two, Edition::One) => Started::TwoAsOne,
        (Edition::Two, Edition::Two) => Started::TwoAsTwo,
    }
}
