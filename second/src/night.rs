//! A recorded night: its calls as bytes, its report and its tally.
//!
//! A call is a row of fields, each a one-byte tag, a two-byte big-endian
//! length and that many bytes: clock, name, answers, hash, the extension if
//! one came, and an empty end. The report has a line for each call, then the
//! total; the first bad call ends it with the line `bad`.
//!
//! The recorded form has no place for the choice whether to learn from disabled
//! servers. The replay tool asks "for the old way by an explicit yes in each
//! call", so every call that is read has the yes.

use std::fmt;
use std::io::{self, BufWriter, ErrorKind, Read, Write};

use crate::judge::{judge_kept, Connection, Judgement};
use crate::pins::PinTable;

const CLOCK: u8 = 1;
const NAME: u8 = 2;
const ANSWERS: u8 = 3;
const HASH: u8 = 4;
const EXTENSION: u8 = 5;
const END: u8 = 6;

/// The tag and the length before each field.
const FIELD_HEADER_LENGTH: usize = 3;
const CLOCK_LENGTH: usize = 4;
const ANSWERS_LENGTH: usize = 2;
const HASH_LENGTH: usize = 32;
const END_LENGTH: usize = 0;

/// Longer than any well-formed name, so that malformed names are recorded too.
pub const LONGEST_RECORDED_NAME: usize = 300;
pub const LONGEST_RECORDED_EXTENSION: usize = 4096;

pub const LONGEST_CALL: usize = 6 * FIELD_HEADER_LENGTH
    + CLOCK_LENGTH
    + LONGEST_RECORDED_NAME
    + ANSWERS_LENGTH
    + HASH_LENGTH
    + LONGEST_RECORDED_EXTENSION
    + END_LENGTH;

const HANDSHAKE_FINISHED: u8 = 1;
const KEY_IS_POINT: u8 = 2;
const SIGNATURE_CORRECT: u8 = 4;
const ALL_ANSWERS: u8 = HANDSHAKE_FINISHED | KEY_IS_POINT | SIGNATURE_CORRECT;

/// How much of a night, and of its report, is in memory at a time.
const BUFFER_LENGTH: usize = 64 * 1024;

/// Why a call has no recorded form.
#[derive(Debug, Clone, Copy, PartialEq, Eq)]
pub enum NotRecordable {
    ClockAbove32Bits,
    NameTooLong,
    HashLengthWrong,
    ExtensionTooLong,
}

/// Appends a recorded call, its name as the caller spelled it; a refusal
/// appends nothing. Whether the call asks for the old way is not recorded.
pub fn write_call(call: &Connection, out: &mut Vec<u8>) -> Result<(), NotRecordable> {
    let clock = u32::try_from(call.clock).map_err(|_| NotRecordable::ClockAbove32Bits)?;
    let extension_length = call.extension.map_or(0, <[u8]>::len);
    if call.name.len() > LONGEST_RECORDED_NAME {
        return Err(NotRecordable::NameTooLong);
    }
    if call.spki_sha256.len() != HASH_LENGTH {
        return Err(NotRecordable::HashLengthWrong);
    }
    if extension_length > LONGEST_RECORDED_EXTENSION {
        return Err(NotRecordable::ExtensionTooLong);
    }
    put_field(CLOCK, &clock.to_be_bytes(), out);
    put_field(NAME, call.name, out);
    put_field(ANSWERS, &[answers_of(call), call.breaks_correct], out);
    put_field(HASH, call.spki_sha256, out);
    if let Some(extension) = call.extension {
        put_field(EXTENSION, extension, out);
    }
    put_field(END, &[], out);
    Ok(())
}

/// The length of every field that gets here fits two bytes.
fn put_field(tag: u8, value: &[u8], out: &mut Vec<u8>) {
    out.push(tag);
    out.extend_from_slice(&(value.len() as u16).to_be_bytes());
    out.extend_from_slice(value);
}

fn answers_of(call: &Connection) -> u8 {
    let bit = |answer: bool, bit: u8| if answer { bit } else { 0 };
    bit(call.handshake_finished, HANDSHAKE_FINISHED)
        | bit(call.key_is_point, KEY_IS_POINT)
        | bit(call.signature_correct, SIGNATURE_CORRECT)
}

/// The first call of the night and the bytes after it, or nothing if the call
/// is cut off or otherwise bad. The call asks for the old way. No byte after the
/// longest call is looked at.
pub fn read_call(night: &[u8]) -> Option<(Connection<'_>, &[u8])> {
    let mut fields = Fields { rest: night };
    let clock = *fields.take_exactly::<CLOCK_LENGTH>(CLOCK)?;
    let name = fields.take(NAME, LONGEST_RECORDED_NAME)?;
    let [answers, breaks_correct] = *fields.take_exactly::<ANSWERS_LENGTH>(ANSWERS)?;
    if answers & !ALL_ANSWERS != 0 {
        return None;
    }
    let hash = fields.take_exactly::<HASH_LENGTH>(HASH)?;
    let extension = if fields.next_is(EXTENSION) {
        Some(fields.take(EXTENSION, LONGEST_RECORDED_EXTENSION)?)
    } else {
        None
    };
    fields.take_exactly::<END_LENGTH>(END)?;
    let call = Connection {
        clock: u64::from(u32::from_be_bytes(clock)),
        name,
        extension,
        spki_sha256: hash,
        handshake_finished: answers & HANDSHAKE_FINISHED != 0,
        key_is_point: answers & KEY_IS_POINT != 0,
        signature_correct: answers & SIGNATURE_CORRECT != 0,
        breaks_correct,
        learn_disabled: true,
    };
    Some((call, fields.rest))
}

/// Fields taken off the front of the bytes, one by one.
struct Fields<'a> {
    rest: &'a [u8],
}

impl<'a> Fields<'a> {
    fn next_is(&self, tag: u8) -> bool {
        self.rest.first() == Some(&tag)
    }

    /// The field of this tag; a length above the longest is refused before
    /// the field is looked for.
    fn take(&mut self, tag: u8, longest: usize) -> Option<&'a [u8]> {
        let ([found, high, low], rest) = self.rest.split_first_chunk()?;
        let length = usize::from(u16::from_be_bytes([*high, *low]));
        if *found != tag || length > longest {
            return None;
        }
        let (value, rest) = rest.split_at_checked(length)?;
        self.rest = rest;
        Some(value)
    }

    fn take_exactly<const LENGTH: usize>(&mut self, tag: u8) -> Option<&'a [u8; LENGTH]> {
        self.take(tag, LENGTH)?.try_into().ok()
    }
}

/// How often each number from 0 to 31 was answered; a full count stays full.
#[derive(Debug, Clone, PartialEq, Eq, Default)]
pub struct Tally {
    pub counts: [u32; 32],
}

impl Tally {
    /// There is no answer above 31.
    pub fn count(&mut self, number: u8) {
        if let Some(count) = self.counts.get_mut(usize::from(number)) {
            *count = count.saturating_add(1);
        }
    }
}

/// A line `number count` for each number that was answered.
impl fmt::Display for Tally {
    fn fmt(&self, out: &mut fmt::Formatter) -> fmt::Result {
        let counts = self.counts.iter().enumerate();
        for (number, count) in counts.filter(|(_, count)| **count != 0) {
            writeln!(out, "{number} {count}")?;
        }
        Ok(())
    }
}

/// Judges one call and counts its answer in the lent tally.
pub fn judge_counted(table: &mut PinTable, call: &Connection, tally: &mut Tally) -> Judgement {
    let judgement = judge_kept(table, call);
    tally.count(judgement.number);
    judgement
}

/// Judges the calls of a night from an empty table and writes the report.
///
/// The tally is that of the calls judged, whether or not a bad one follows.
/// Of the night only a buffer's length is in memory at a time.
pub fn replay(input: impl Read, output: impl Write) -> io::Result<Tally> {
    let mut night = Night::new(input);
    let mut output = BufWriter::with_capacity(BUFFER_LENGTH, output);
    let mut table = PinTable::empty();
    let mut tally = Tally::default();
    let mut calls = 0;
    loop {
        match night.next()? {
            Next::Call(call) => {
                let judgement = judge_counted(&mut table, &call, &mut tally);
                output.write_all(Line::of(calls, judgement).text())?;
                calls += 1;
            }
            Next::Bad => {
                output.write_all(b"bad\n")?;
                break;
            }
            Next::End => {
                writeln!(output, "total {calls}")?;
                break;
            }
        }
    }
    output.flush()?;
    Ok(tally)
}

/// The report on a night that is in memory already.
pub fn report(night: &[u8]) -> Vec<u8> {
    let mut output = Vec::new();
    replay(night, &mut output).expect("memory has no read or write errors");
    output
}

enum Next<'a> {
    Call(Connection<'a>),
    Bad,
    End,
}

/// The night as far as it is in memory: the bytes from `start` to `end`.
struct Night<R> {
    input: R,
    input_ended: bool,
    buffer: Vec<u8>,
    start: usize,
    end: usize,
}

impl<R: Read> Night<R> {
    fn new(input: R) -> Night<R> {
        Night {
            input,
            input_ended: false,
            buffer: vec![0; BUFFER_LENGTH],
            start: 0,
            end: 0,
        }
    }

    fn next(&mut self) -> io::Result<Next<'_>> {
        if self.end - self.start < LONGEST_CALL && !self.input_ended {
            self.fill()?;
        }
        let ahead = &self.buffer[self.start..self.end];
        if ahead.is_empty() {
            return Ok(Next::End);
        }
        let Some((call, rest)) = read_call(ahead) else {
            return Ok(Next::Bad);
        };
        self.start = self.end - rest.len();
        Ok(Next::Call(call))
    }

    /// Reads on until the longest call, or all that is left, is in memory. A
    /// call that is cut off then is cut off in the input.
    fn fill(&mut self) -> io::Result<()> {
        self.buffer.copy_within(self.start..self.end, 0);
        self.end -= self.start;
        self.start = 0;
        while self.end < LONGEST_CALL && !self.input_ended {
            match self.input.read(&mut self.buffer[self.end..]) {
                Ok(0) => self.input_ended = true,
                Ok(length) => self.end += length,
                Err(error) if error.kind() == ErrorKind::Interrupted => {}
                Err(error) => return Err(error),
            }
        }
        Ok(())
    }
}

/// A line of the report, put together from its end.
struct Line {
    bytes: [u8; Line::LONGEST],
    start: usize,
}

impl Line {
    /// An index of 20 digits, number and alert of 3, no-room of 1, each with
    /// the space or newline after it.
    const LONGEST: usize = 21 + 4 + 4 + 2;

    fn of(index: u64, judgement: Judgement) -> Line {
        let mut line = Line {
            bytes: [0; Line::LONGEST],
            start: Line::LONGEST,
        };
        line.put(b'\n');
        line.put_decimal(u64::from(judgement.no_room));
        line.put(b' ');
        line.put_decimal(u64::from(judgement.alert));
        line.put(b' ');
        line.put_decimal(u64::from(judgement.number));
        line.put(b' ');
        line.put_decimal(index);
        line
    }

    fn text(&self) -> &[u8] {
        &self.bytes[self.start..]
    }

    fn put(&mut self, byte: u8) {
        self.start -= 1;
        self.bytes[self.start] = byte;
    }

    fn put_decimal(&mut self, number: u64) {
        let mut rest = number;
        loop {
            self.put(b'0' + (rest % 10) as u8);
            rest /= 10;
            if rest == 0 {
                return;
            }
        }
    }
}
