//! The extension's reader and writers, on well-formed, cut, lengthened and mangled bytes.

use crate::random::Random;
use crate::tally::Tally;
use second::extension as plain;
use tack::raw;

/// What a run has met so far.
#[derive(Default)]
pub struct Extensions {
    read: Tally,
    written: Tally,
    signed: Tally,
    lengths: std::collections::BTreeSet<usize>,
}

fn fail(
    what: &str,
    input: &[u8],
    proved: impl std::fmt::Debug,
    plain: impl std::fmt::Debug,
) -> String {
    format!("{what} differs: proved {proved:?}, second {plain:?}, input {input:02x?}")
}

impl Extensions {
    /// One byte string, read by both.
    fn read(&mut self, bytes: &[u8]) -> Result<(), String> {
        let (proved, second) = (raw::extension_read(bytes), plain::read(bytes));
        if (proved.number, proved.alert, proved.activation)
            != (second.number, second.alert, second.activation)
        {
            return Err(fail("the reading", bytes, proved, second));
        }
        let (proved_tack, second_tack) = (raw::extension_tack(bytes), plain::tack_span(bytes));
        if (proved_tack.start, proved_tack.length) != (second_tack.start, second_tack.length) {
            return Err(fail("the tack", bytes, proved_tack, second_tack));
        }
        let (proved_breaks, second_breaks) =
            (raw::extension_breaks(bytes), plain::breaks_span(bytes));
        if (proved_breaks.start, proved_breaks.length)
            != (second_breaks.start, second_breaks.length)
        {
            return Err(fail(
                "the break signatures",
                bytes,
                proved_breaks,
                second_breaks,
            ));
        }
        self.read.add(proved.number);
        if proved.number == 9 {
            self.lengths.insert(bytes.len());
            self.rewrite(bytes, proved.activation)?;
        }
        Ok(())
    }

    /// What reads must rewrite to the same bytes.
    fn rewrite(&mut self, bytes: &[u8], activation: u8) -> Result<(), String> {
        let part = |span: raw::Span| &bytes[span.start..span.start + span.length];
        let (tack, breaks) = (
            part(raw::extension_tack(bytes)),
            part(raw::extension_breaks(bytes)),
        );
        let mut out = vec![0xa5; bytes.len()];
        let answer = raw::extension_write(tack, breaks, activation, &mut out);
        match answer.number == 9 && answer.written == bytes.len() && out == bytes {
            true => Ok(()),
            false => Err(fail("what was read, written again,", bytes, answer, out)),
        }
    }

    /// Parts of any length into an output of any length, by both, every byte of the output compared.
    fn write(
        &mut self,
        tack: &[u8],
        breaks: &[u8],
        activation: u8,
        space: usize,
        filler: u8,
    ) -> Result<(), String> {
        let (mut one, mut two) = (vec![filler; space], vec![filler; space]);
        let proved = raw::extension_write(tack, breaks, activation, &mut one);
        let second = plain::write(tack, breaks, activation, &mut two);
        if (proved.number, proved.alert, proved.written, &one)
            != (second.number, second.alert, second.written, &two)
        {
            return Err(fail("the writing", tack, proved, second));
        }
        self.written.add(proved.number);
        let (mut one, mut two) = (vec![filler; space], vec![filler; space]);
        let proved = raw::signed_bytes(tack, &mut one);
        let second = plain::signed_bytes(tack, &mut two);
        if (proved.number, proved.alert, proved.written, &one)
            != (second.number, second.alert, second.written, &two)
        {
            return Err(fail("the bytes to be signed", tack, proved, second));
        }
        self.signed.add(proved.number);
        Ok(())
    }

    /// Every length byte and every activation byte, with the rest well-formed; every two-byte length up to 1,300.
    pub fn edges(&mut self, random: &mut Random) -> Result<u64, String> {
        let mut inputs = 0;
        for byte in 0..=255u8 {
            for length in [0, 166, usize::from(byte)] {
                let mut bytes = vec![byte];
                bytes.extend(random.bytes(length));
                bytes.extend([0, 0, 1]);
                self.read(&bytes)?;
                self.read(&[0, 0, 0, byte])?;
                self.read(&[0, byte, 0, 1])?;
                self.read(&[0, 0, byte, 1])?;
                inputs += 4;
            }
        }
        for length in 0..1300usize {
            let mut bytes = vec![0];
            bytes.extend((length as u16).to_be_bytes());
            bytes.extend(random.bytes(length));
            bytes.push(1);
            self.read(&bytes)?;
            self.write(&[], &bytes[3..3 + length], 1, bytes.len(), 0)?;
            inputs += 2;
        }
        Ok(inputs)
    }

    /// One random case: well-formed, then cut, lengthened or with a byte changed; parts and outputs near their limits.
    pub fn case(&mut self, random: &mut Random) -> Result<u64, String> {
        let tack_length = if random.one_in(3) { 0 } else { 166 };
        let tack = random.bytes(tack_length);
        let count = random.below(9);
        let breaks = random.bytes(128 * count);
        let activation = random.below(2) as u8;
        let mut bytes = vec![tack.len() as u8];
        bytes.extend(&tack);
        bytes.extend((breaks.len() as u16).to_be_bytes());
        bytes.extend(&breaks);
        bytes.push(activation);
        self.read(&bytes)?;
        match random.below(4) {
            0 => bytes.truncate(random.below(bytes.len())),
            1 => {
                let more = 1 + random.below(3);
                bytes.extend(random.bytes(more));
            }
            2 => {
                let at = random.below(bytes.len());
                bytes[at] = random.byte();
            }
            _ => {
                let at = *random.pick(&[0, tack.len() + 1, tack.len() + 2, bytes.len() - 1]);
                bytes[at] = random.byte();
            }
        }
        self.read(&bytes)?;
        let near =
            |random: &mut Random, length: usize| (length + random.below(3)).saturating_sub(1);
        let tack_length = if random.one_in(4) {
            near(random, tack.len())
        } else {
            tack.len()
        };
        let break_length = if random.one_in(4) {
            random.below(1300)
        } else {
            breaks.len()
        };
        let activation = if random.one_in(8) {
            random.byte()
        } else {
            activation
        };
        let (tack, breaks) = (random.bytes(tack_length), random.bytes(break_length));
        let needed = tack.len() + breaks.len() + 4;
        let space = *random.pick(&[
            needed - 1,
            needed,
            needed + 1,
            needed + 40,
            0,
            109,
            110,
            111,
        ]);
        self.write(&tack, &breaks, activation, space, random.byte())?;
        Ok(3)
    }

    /// The verdict: every number came, and so did the shortest and the longest extension.
    pub fn finish(&self) -> Result<(), String> {
        self.read.report("readings", &[9, 16])?;
        self.written.report("writings", &[9, 25, 26])?;
        self.signed.report("bytes to be signed", &[9, 25, 26])?;
        for length in [4, 132, 170, 1194] {
            if !self.lengths.contains(&length) {
                return Err(format!("no well-formed extension of {length} bytes came"));
            }
        }
        Ok(())
    }
}
