//! The name field of a table slot: whether a name may stand there, and whether zeros alone are behind it. The proved library
//! tests a short name there over a fixed number of bytes, otherwise than a caller's name.

mod drawn;
mod edges;
mod field;
mod kinds;

use crate::area::{Area, NAME_SLOTS};
use crate::both;
use crate::random::Random;
use crate::small_tables;
use field::Field;
use kinds::{Counts, Kind};

/// A table, and the name slot whose field is replaced.
struct Table {
    area: Area,
    slot: usize,
}

/// The tables, and what their fields have met so far.
pub struct PaddedNames {
    tables: Vec<Table>,
    random: Random,
    counts: Counts,
}

impl PaddedNames {
    /// Its own random choices leave those of the other parts as they are.
    pub fn new(seed: u64) -> PaddedNames {
        let mut random = Random::new(seed);
        PaddedNames {
            tables: tables(&mut random),
            random,
            counts: Counts::default(),
        }
    }

    /// Every field of the edges in every table.
    pub fn edges(&mut self) -> Result<u64, String> {
        let fields = edges::all();
        for table in 0..self.tables.len() {
            for (kind, field) in &fields {
                self.field(table, *kind, field)?;
            }
        }
        Ok((self.tables.len() * fields.len()) as u64)
    }

    /// One random field.
    pub fn case(&mut self) -> Result<u64, String> {
        let table = self.random.below(self.tables.len());
        let (kind, field) = drawn::field(&mut self.random);
        self.field(table, kind, &field)?;
        Ok(1)
    }

    fn field(&mut self, table: usize, kind: Kind, field: &Field) -> Result<(), String> {
        let Table { area, slot } = &mut self.tables[table];
        field.put(area, *slot);
        both::is_sound(&area.bytes)
            .and_then(|is_sound| self.counts.add(kind, is_sound))
            .map_err(|problem| {
                let Field { length, bytes } = field;
                format!("{problem}; name slot {slot}, {kind:?}, length {length}, {bytes:02x?}")
            })
    }

    /// The verdict: every kind of field came.
    pub fn finish(&self) -> Result<(), String> {
        self.counts.finish()
    }
}

/// The first, a middle and the last slot, each with its pin alone and with the pins of the others.
fn tables(random: &mut Random) -> Vec<Table> {
    let middle = 1 + random.below(NAME_SLOTS - 2);
    let all = [(0, 5), (middle, 0), (NAME_SLOTS - 1, 63)];
    let table = |slots: &[(usize, usize)], slot| Table {
        area: small_tables::with_pins_in(slots),
        slot,
    };
    all.iter()
        .flat_map(|&one| [table(&[one], one.0), table(&all, one.0)])
        .collect()
}
