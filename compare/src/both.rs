//! One call by both programs on the same bytes.

use crate::area;
use crate::call::{Answer, By, Call};
use crate::disabled;
use crate::either_choice;
use crate::kept;
use tack::raw;
use tack::table::Refusal;

/// Whether both find the table sound: the library then refuses the empty name with 12, and before it a damaged table with 11.
pub fn is_sound(table: &[u8]) -> Result<bool, String> {
    let (proved, second) = (
        raw::inspect(table, b"", 0, false).number,
        second::is_sound(table),
    );
    match (proved, second) {
        (12, true) => Ok(true),
        (11, false) => Ok(false),
        _ => Err(format!(
            "soundness differs: proved answers {proved}, second finds it sound: {second}"
        )),
    }
}

/// Runs the call by both and compares every field of the answer and every byte of the table, which is left as both left it;
/// where the papers say what that is by the number, or for want of an enabled tack, it is compared with this too.
pub fn call(table: &mut [u8], call: &Call) -> Result<Answer, String> {
    let given = by_both(call, table)
        .map_err(|problem| format!("{problem}; numbers in hexadecimal: {call:02x?}"))?;
    table.copy_from_slice(&given.table);
    Ok(given.answer)
}

fn by_both(call: &Call, before: &[u8]) -> Result<Given, String> {
    let [proved, second] = [By::Proved, By::Second].map(|program| by(program, call, before));
    let (proved, second) = (proved?, second?);
    proved.same_as(&second, ["proved", "second"])?;
    let answer = proved.answer;
    kept::check(call, answer.number, before, &proved.table)
        .and_then(|()| disabled::check(call, &answer, before, &proved.table))
        .map_err(|problem| format!("both agree, but {problem}: {answer:?}"))?;
    match answer.number >= 10 && Refusal::try_from(answer.number).is_err() {
        true => Err(format!("the safe crate knows no refusal of {answer:?}")),
        false => Ok(proved),
    }
}

/// The call by one program: its table keeps small letters only, and capitals in the call's name make no difference. Each call
/// of a list so gets the table that the list in small letters would give it, and leaves the table that it would leave. Nor does
/// the yes for disabled tacks make a difference where it may not.
fn by(program: By, call: &Call, before: &[u8]) -> Result<Given, String> {
    let of_program = |problem| format!("{program:?}: {problem}");
    let given = Given::new(program, call, before);
    given.keeps_small_letters().map_err(of_program)?;
    if call.has_capital() {
        let small = Given::new(program, &call.in_small_letters(), before);
        given
            .same_as(&small, ["as spelled", "in small letters"])
            .map_err(of_program)?;
    }
    if let Some(other) = either_choice::other(call, given.answer.number, before) {
        let other = Given::new(program, &other, before);
        given
            .same_as(&other, ["with its own choice", "with the other choice"])
            .map_err(of_program)?;
    }
    Ok(given)
}

/// An answer, and the table after it.
struct Given {
    answer: Answer,
    table: Vec<u8>,
}

impl Given {
    fn new(program: By, call: &Call, before: &[u8]) -> Given {
        let mut table = before.to_vec();
        let answer = call.by(program, &mut table);
        Given { answer, table }
    }

    /// Every field and every byte; the names say whose they are.
    fn same_as(&self, other: &Given, [one, two]: [&str; 2]) -> Result<(), String> {
        if self.answer != other.answer {
            let (answer, other) = (self.answer, other.answer);
            return Err(format!(
                "the answers differ: {one} {answer:?}, {two} {other:?}"
            ));
        }
        match area::first_difference(&self.table, &other.table) {
            None => Ok(()),
            Some(at) => Err(format!(
                "the tables differ at {}: {one} {}, {two} {}; both answered {:?}",
                area::place(at),
                self.table[at],
                other.table[at],
                self.answer
            )),
        }
    }

    /// No capital stands in a name; only a table that is refused itself may hold one.
    fn keeps_small_letters(&self) -> Result<(), String> {
        let answer = self.answer;
        match area::capital(&self.table) {
            Some(slot) if !matches!(answer.number, 10 | 11) => Err(format!(
                "a capital stands in name slot {slot} after {answer:?}"
            )),
            _ => Ok(()),
        }
    }
}
