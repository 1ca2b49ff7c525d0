//! The reader and the writer of edition two's extension, on well-formed, cut, lengthened and mangled bytes.

mod kinds;

use crate::kind_counts::KindCounts;
use crate::random::Random;
use crate::tally::Tally;
use crate::wire::tacks_and_flags;
use kinds::{NotWritten, WellFormed};
use second::extension_two as plain;
use std::fmt::Debug;
use std::ops::RangeInclusive;
use tack::raw;

/// Lengths that two bytes do not hold; without the rest they are those of no tack, of one and of two.
const ABOVE_TWO_BYTES: RangeInclusive<usize> = 65_536..=65_536 + 332;

/// What a run has met so far.
#[derive(Default)]
pub struct ExtensionsTwo {
    read: Tally,
    written: Tally,
    well_formed: KindCounts<WellFormed>,
    not_written: KindCounts<NotWritten>,
    /// Extensions of edition one, which edition two refuses.
    of_edition_one: u64,
}

impl ExtensionsTwo {
    /// One byte string, read by both.
    fn read(&mut self, bytes: &[u8]) -> Result<u8, String> {
        let (proved, second) = (raw::extension_two_read(bytes), plain::read(bytes));
        let reading = (second.number, second.alert, second.activation);
        same(
            "the reading",
            bytes,
            (proved.number, proved.alert, proved.activation),
            reading,
        )?;
        for of_second in [false, true] {
            let proved = raw::extension_two_tack(bytes, of_second);
            let second = plain::tack_span(bytes, of_second);
            same(
                "a tack",
                bytes,
                (proved.start, proved.length),
                (second.start, second.length),
            )?;
        }
        self.read.add(proved.number);
        if proved.number == 9 {
            self.rewrite(bytes, proved.activation)?;
        }
        Ok(proved.number)
    }

    /// What reads must rewrite to the same bytes.
    fn rewrite(&mut self, bytes: &[u8], flags: u8) -> Result<(), String> {
        let [first, second] = [false, true].map(|second| raw::extension_two_tack(bytes, second));
        let part = |span: raw::Span| &bytes[span.start..span.start + span.length];
        let tacks = [part(first), part(second)].concat();
        self.well_formed.add(WellFormed::of(tacks.len(), flags));
        let mut out = vec![0xa5; bytes.len()];
        let answer = raw::extension_two_write(&tacks, flags, &mut out);
        let written = (answer.number, answer.written, &out[..]);
        same(
            "what was read, written again,",
            bytes,
            written,
            (9, bytes.len(), bytes),
        )
    }

    /// Tacks of any length and any flags into an output of any length, by both, every byte of the output compared.
    fn write(&mut self, tacks: &[u8], flags: u8, space: usize, filler: u8) -> Result<(), String> {
        let (mut one, mut two) = (vec![filler; space], vec![filler; space]);
        let proved = raw::extension_two_write(tacks, flags, &mut one);
        let second = plain::write(tacks, flags, &mut two);
        same(
            "the writing",
            &tacks_and_flags(tacks, flags),
            (proved.number, proved.alert, proved.written, one),
            (second.number, second.alert, second.written, two),
        )?;
        self.written.add(proved.number);
        if let Some(kind) = NotWritten::of(proved.number, tacks.len(), flags, space) {
            self.not_written.add(kind);
        }
        Ok(())
    }

    /// Every length before one tack and before two, every flags byte behind them, every cut; the writer around its limits.
    pub fn edges(&mut self, random: &mut Random) -> Result<u64, String> {
        let tacks = random.bytes(*ABOVE_TWO_BYTES.end());
        let mut inputs = 0;
        for part in [&tacks[..166], &tacks[..332]] {
            inputs += self.edges_of_reading(part, random)?;
        }
        for length in (0..=500).chain(ABOVE_TWO_BYTES) {
            self.read(&tacks_and_flags(&tacks[..length], 1))?;
            inputs += 1;
        }
        Ok(inputs + self.edges_of_writing(&tacks)?)
    }

    fn edges_of_reading(&mut self, tacks: &[u8], random: &mut Random) -> Result<u64, String> {
        let mut bytes = tacks_and_flags(tacks, 1);
        for length in 0..=u16::MAX {
            bytes[..2].copy_from_slice(&length.to_be_bytes());
            self.read(&bytes)?;
        }
        for flags in 0..=255 {
            self.read(&tacks_and_flags(tacks, flags))?;
        }
        let good = tacks_and_flags(tacks, 1);
        let longer = [&good[..], &random.bytes(3)].concat();
        for end in 0..=longer.len() {
            self.read(&longer[..end])?;
        }
        Ok(65_536 + 256 + longer.len() as u64 + 1)
    }

    /// Lengths around those of no, one, two and three tacks, with every flags byte, into outputs around the length.
    fn edges_of_writing(&mut self, tacks: &[u8]) -> Result<u64, String> {
        let mut inputs = 0;
        for length in [0, 1, 2, 165, 166, 167, 331, 332, 333, 498] {
            for flags in 0..=255 {
                for space in [0, length + 2, length + 3, length + 4] {
                    self.write(&tacks[..length], flags, space, flags)?;
                    inputs += 1;
                }
            }
        }
        for length in ABOVE_TWO_BYTES {
            self.write(&tacks[..length], 1, length + 3, 0xa5)?;
            inputs += 1;
        }
        Ok(inputs)
    }

    /// One random case: well-formed, then cut, lengthened or with a byte changed; one of edition one; parts and outputs near
    /// their limits.
    pub fn case(&mut self, random: &mut Random) -> Result<u64, String> {
        let length = *random.pick(&[166, 332]);
        let tacks = random.bytes(length);
        let flags = random.below(length / 166 * 2) as u8;
        let mut bytes = tacks_and_flags(&tacks, flags);
        self.read(&bytes)?;
        mangle(&mut bytes, random);
        self.read(&bytes)?;
        self.read_of_edition_one(&tacks[..166])?;
        let near = (length + random.below(3)).saturating_sub(1);
        let length = *random.pick(&[length, length, near]);
        let tacks = random.bytes(length);
        let any = random.byte();
        let flags = *random.pick(&[flags, flags, any]);
        let space = *random.pick(&[length + 2, length + 3, length + 4, length + 40, 0]);
        self.write(&tacks, flags, space, any)?;
        Ok(4)
    }

    /// A server of the other edition.
    fn read_of_edition_one(&mut self, tack: &[u8]) -> Result<(), String> {
        let bytes = [&[166], tack, &[0, 0, 1]].concat();
        self.of_edition_one += 1;
        match self.read(&bytes)? {
            16 => Ok(()),
            number => Err(format!("both read an extension of edition one: {number}")),
        }
    }

    /// The verdict: every number came, and every kind.
    pub fn finish(&self) -> Result<(), String> {
        self.read.report("readings of edition two", &[9, 16])?;
        println!(
            "readings of edition two of an extension of edition one: {}",
            self.of_edition_one
        );
        self.written
            .report("writings of edition two", &[9, 25, 26])?;
        self.well_formed.report()?;
        self.not_written.report()
    }
}

fn same<T: PartialEq + Debug>(
    what: &str,
    input: &[u8],
    proved: T,
    second: T,
) -> Result<(), String> {
    match proved == second {
        true => Ok(()),
        false => Err(format!(
            "{what} of edition two differs: proved {proved:?}, second {second:?}, input {input:02x?}"
        )),
    }
}

/// Cuts, lengthens, or changes a byte, that of the length or of the flags more often than others.
fn mangle(bytes: &mut Vec<u8>, random: &mut Random) {
    let last = bytes.len() - 1;
    match random.below(4) {
        0 => bytes.truncate(random.below(bytes.len())),
        1 => {
            let more = 1 + random.below(3);
            bytes.extend(random.bytes(more));
        }
        _ => {
            let any = random.below(bytes.len());
            bytes[*random.pick(&[0, 1, last, any])] = random.byte();
        }
    }
}
