//! The bytes of recorded calls as each writer writes them, against the maker's.

use crate::area::Area;
use crate::call::Connection;
use crate::choices::{Choices, Mix};
use crate::random::Random;
use crate::record::{self, LONGEST_CALL, LONGEST_EXTENSION, LONGEST_NAME};
use crate::tally::Tally;
use tack::{night, raw};

/// What an output holds before a call is written.
const FILLER: u8 = 0xa5;

/// How many calls were written, how many have no recorded form, and the proved writer's answers.
#[derive(Default)]
pub struct Writers {
    written: u64,
    refused: u64,
    proved: Tally,
}

impl Writers {
    /// Every limit of what is recorded, and random calls.
    pub fn edges(&mut self, random: &mut Random) -> Result<(), String> {
        for name in [0, 1, LONGEST_NAME, LONGEST_NAME + 1, 70_000] {
            for extension in [0, 1, LONGEST_EXTENSION, LONGEST_EXTENSION + 1, 70_000] {
                for hash in [0, 31, 32, 33] {
                    for clock in [0, u64::from(u32::MAX), 1 << 32, u64::MAX] {
                        let call = Connection {
                            clock,
                            hash: vec![1; hash],
                            ..Connection::at(0, &vec![b'a'; name]).with(vec![2; extension])
                        };
                        self.call(&call)?;
                    }
                }
            }
        }
        self.cases(2_000, random)
    }

    /// So many random calls.
    pub fn cases(&mut self, calls: usize, random: &mut Random) -> Result<(), String> {
        let (mix, _) = Mix::of_list(random);
        let area = Area::empty();
        for number in 0..calls {
            let mut call = Choices::new(&mix, &area, random).connection();
            // It has no place in a recording, which is the same with either.
            call.learn_disabled = number % 2 == 0;
            if random.one_in(8) {
                let any = random.below(2 * LONGEST_NAME);
                let length = *random.pick(&[any, LONGEST_NAME, LONGEST_NAME + 1]);
                call.name.resize(length, b'a');
            }
            if random.one_in(8) {
                let any = random.below(2 * LONGEST_EXTENSION);
                let length = *random.pick(&[any, LONGEST_EXTENSION, LONGEST_EXTENSION + 1]);
                call.extension.resize(length, 0);
            }
            self.call(&call)?;
        }
        Ok(())
    }

    /// One call by every writer.
    fn call(&mut self, call: &Connection) -> Result<(), String> {
        let made = record::call(call);
        match made {
            Some(_) => self.written += 1,
            None => self.refused += 1,
        }
        same("second", call, by_second(call).as_deref())?;
        same("proved", call, by_safe_crate(call).as_deref())?;
        let needed = made.as_ref().map_or(0, Vec::len);
        let less = needed.saturating_sub(1);
        for space in [0, less, needed, needed + 1, LONGEST_CALL] {
            self.into_space(call, made.as_deref(), space)?;
        }
        Ok(())
    }

    /// One call by the proved writer into an output of so many bytes, each of which is compared.
    fn into_space(
        &mut self,
        call: &Connection,
        made: Option<&[u8]>,
        space: usize,
    ) -> Result<(), String> {
        let mut out = vec![FILLER; space];
        let answer = raw::call_write(&call.for_proved(), &mut out);
        self.proved.add(answer.number);
        let (proved, expected) = ((answer, out), expected(made, space));
        match proved == expected {
            true => Ok(()),
            false => Err(format!(
                "the proved writer gave {proved:02x?} where {expected:02x?} was expected, of {call:02x?}"
            )),
        }
    }

    /// The verdict: calls with and without a recorded form came.
    pub fn finish(&self) -> Result<(), String> {
        let (written, refused) = (self.written, self.refused);
        println!("writers of calls: {written} written, {refused} without a recorded form");
        self.proved.report("recordings", &[9, 25, 26])?;
        match written > 0 && refused > 0 {
            true => Ok(()),
            false => Err("calls with or without a recorded form never came".to_string()),
        }
    }
}

/// What the second program writes, nothing if it refuses the call.
fn by_second(call: &Connection) -> Option<Vec<u8>> {
    let mut bytes = vec![];
    let written = second::write_call(&call.for_second(), &mut bytes);
    written.ok().map(|()| bytes)
}

/// What the proved library writes, asked by the safe crate.
fn by_safe_crate(call: &Connection) -> Option<Vec<u8>> {
    let mut bytes = vec![];
    let written = night::record(&call.for_safe_crate(), &mut bytes);
    written.ok().map(|()| bytes)
}

/// The answer for an output of so many bytes, and the output after it.
fn expected(made: Option<&[u8]>, space: usize) -> (raw::Writing, Vec<u8>) {
    let mut out = vec![FILLER; space];
    let (number, written) = match made {
        None => (25, 0),
        Some(made) if made.len() > space => (26, 0),
        Some(made) => {
            out[..made.len()].copy_from_slice(made);
            (9, made.len())
        }
    };
    let answer = raw::Writing {
        number,
        alert: 0,
        written,
    };
    (answer, out)
}

/// Compares what a writer wrote, nothing if it refused the call, with the maker's bytes.
fn same(writer: &str, call: &Connection, written: Option<&[u8]>) -> Result<(), String> {
    let made = record::call(call);
    match written == made.as_deref() {
        true => Ok(()),
        false => Err(format!(
            "the {writer} writer wrote {written:02x?}, the maker {made:02x?}, of {call:02x?}"
        )),
    }
}
