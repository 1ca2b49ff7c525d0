//! Host names: labels and names at their limits, every byte in every place, letters of either case.

use crate::pool;
use crate::random::Random;
use crate::spelling;
use tack::raw;

/// Every byte is put in every place of these.
const WITH_EVERY_BYTE: [&[u8]; 2] = [b"desk-9.example", b"A-Z.Desk.9X"];

/// How many names both took, and how many both refused.
#[derive(Default)]
struct Counts {
    taken: u64,
    refused: u64,
}

impl Counts {
    fn add(&mut self, is_taken: bool) {
        match is_taken {
            true => self.taken += 1,
            false => self.refused += 1,
        }
    }

    fn sum(&self) -> u64 {
        self.taken + self.refused
    }

    fn report(&self, what: &str) -> Result<(), String> {
        let Counts { taken, refused } = self;
        println!("{what}: {taken} taken, {refused} refused");
        match [taken, refused].contains(&&0) {
            true => Err(format!("{what}: taken or refused ones never came")),
            false => Ok(()),
        }
    }
}

/// What the names have met so far.
#[derive(Default)]
pub struct Names {
    without_capitals: Counts,
    /// Each of these was asked again in small letters.
    with_capitals: Counts,
}

impl Names {
    fn name(&mut self, name: &[u8]) -> Result<(), String> {
        let is_taken = taken_by_both(name)?;
        if !spelling::has_capital(name) {
            self.without_capitals.add(is_taken);
            return Ok(());
        }
        self.with_capitals.add(is_taken);
        match taken_by_both(&spelling::small(name))? == is_taken {
            true => Ok(()),
            false => Err(format!(
                "the name {name:02x?} is taken: {is_taken}; in small letters: {}",
                !is_taken
            )),
        }
    }

    fn asked(&self) -> u64 {
        self.without_capitals.sum() + self.with_capitals.sum()
    }

    fn in_either_case(&mut self, name: &[u8]) -> Result<(), String> {
        self.name(name)?;
        self.name(&name.to_ascii_uppercase())
    }

    /// Every byte first, within and last in a label, and in every place of some names; labels of 0 to 70 bytes and names of
    /// 240 to 260 bytes in either case.
    pub fn edges(&mut self) -> Result<u64, String> {
        let before = self.asked();
        for byte in 0..=255u8 {
            for name in [[byte, b'a', b'a'], [b'a', byte, b'a'], [b'a', b'a', byte]] {
                self.name(&name)?;
                self.name(&[b"x.", &name[..], b".y"].concat())?;
            }
            self.name(&[byte])?;
            self.in_every_place(byte)?;
        }
        for length in 0..70 {
            let label = vec![b'a'; length];
            self.in_either_case(&label)?;
            self.in_either_case(&[&label[..], b".b"].concat())?;
            self.in_either_case(&[b"b.", &label[..]].concat())?;
        }
        for length in 240..260 {
            let name: Vec<u8> = (0..length)
                .map(|i| if i % 60 == 59 { b'.' } else { b'a' })
                .collect();
            self.in_either_case(&name)?;
        }
        Ok(self.asked() - before)
    }

    fn in_every_place(&mut self, byte: u8) -> Result<(), String> {
        for whole in WITH_EVERY_BYTE {
            for place in 0..whole.len() {
                let mut name = whole.to_vec();
                name[place] = byte;
                self.name(&name)?;
            }
        }
        Ok(())
    }

    /// One random name, mostly of the bytes that names are made of, in any spelling.
    pub fn case(&mut self, random: &mut Random) -> Result<u64, String> {
        let length = if random.one_in(4) {
            230 + random.below(40)
        } else {
            random.below(80)
        };
        let name: Vec<u8> = (0..length)
            .map(|_| match random.below(400) {
                0 => random.byte(),
                1 => *random.pick(pool::BESIDE_LETTERS),
                2..=7 => b'-',
                8..=25 => b'.',
                _ => *random.pick(b"abcxyz0189"),
            })
            .collect();
        self.name(&spelling::any(name, random))?;
        Ok(1)
    }

    /// The verdict: names with and without capitals came, and of each kind some were taken and some refused.
    pub fn finish(&self) -> Result<(), String> {
        self.without_capitals.report("names without capitals")?;
        self.with_capitals.report("names with capitals")
    }
}

/// Whether both programs take the name.
fn taken_by_both(name: &[u8]) -> Result<bool, String> {
    let (proved, second) = (raw::name_well_formed(name), second::is_well_formed(name));
    match proved == second {
        true => Ok(proved),
        false => Err(format!(
            "the name {name:02x?} differs: proved {proved}, second {second}"
        )),
    }
}
