//! The bytes of recorded calls, written here without the help of either program.

use crate::call::Connection;

pub const CLOCK: u8 = 1;
pub const NAME: u8 = 2;
pub const ANSWERS: u8 = 3;
pub const HASH: u8 = 4;
pub const EXTENSION: u8 = 5;
pub const END: u8 = 6;

/// The most bytes that are recorded of a name, and of an extension.
pub const LONGEST_NAME: usize = 300;
pub const LONGEST_EXTENSION: usize = 4096;
/// Six tags and lengths, clock, name, answers, hash, extension.
pub const LONGEST_CALL: usize = 6 * 3 + 4 + LONGEST_NAME + 2 + 32 + LONGEST_EXTENSION;

/// A field of a recorded call. Only a mangled field has another length than its contents.
#[derive(Debug, Clone)]
pub struct Field {
    pub tag: u8,
    pub length: u16,
    pub contents: Vec<u8>,
}

impl Field {
    /// Contents of at most 65,535 bytes.
    pub fn new(tag: u8, contents: &[u8]) -> Field {
        Field {
            tag,
            length: contents.len() as u16,
            contents: contents.to_vec(),
        }
    }

    fn put(&self, out: &mut Vec<u8>) {
        out.push(self.tag);
        out.extend(self.length.to_be_bytes());
        out.extend(&self.contents);
    }
}

/// The fields of the call in their order; none if it has no recorded form.
pub fn fields(call: &Connection) -> Option<Vec<Field>> {
    let clock = u32::try_from(call.clock).ok()?;
    let extension = call.extension_came.then_some(&call.extension);
    let fits = call.name.len() <= LONGEST_NAME
        && call.hash.len() == 32
        && extension.is_none_or(|bytes| bytes.len() <= LONGEST_EXTENSION);
    if !fits {
        return None;
    }
    let mut fields = vec![
        Field::new(CLOCK, &clock.to_be_bytes()),
        Field::new(NAME, &call.name),
        Field::new(ANSWERS, &[answers(call), call.breaks_correct]),
        Field::new(HASH, &call.hash),
    ];
    fields.extend(extension.map(|bytes| Field::new(EXTENSION, bytes)));
    fields.push(Field::new(END, &[]));
    Some(fields)
}

/// Bit 0 for the handshake, bit 1 for the point, bit 2 for the tack signature.
fn answers(call: &Connection) -> u8 {
    u8::from(call.handshake_finished)
        | u8::from(call.key_is_point) << 1
        | u8::from(call.signature_correct) << 2
}

/// The bytes of fields, one after the other.
pub fn bytes<'a>(fields: impl IntoIterator<Item = &'a Field>) -> Vec<u8> {
    let mut bytes = Vec::new();
    for field in fields {
        field.put(&mut bytes);
    }
    bytes
}

/// A night of whole calls with every name in small letters.
pub fn in_small_letters(night: &[u8]) -> Vec<u8> {
    let mut small = night.to_vec();
    let mut rest = &mut small[..];
    while let [tag, high, low, behind @ ..] = rest {
        let length = usize::from(u16::from_be_bytes([*high, *low]));
        let (contents, others) = behind.split_at_mut(length.min(behind.len()));
        if *tag == NAME {
            contents.make_ascii_lowercase();
        }
        rest = others;
    }
    small
}

/// The bytes of the call; none if it has no recorded form.
pub fn call(call: &Connection) -> Option<Vec<u8>> {
    fields(call).map(|fields| bytes(&fields))
}

#[test]
fn names_alone_are_put_in_small_letters() {
    let night = |name: &[u8]| {
        let silent = Connection::at(7, name);
        let shown = silent.clone().with(b"AZ".to_vec());
        [silent, shown]
            .map(|made| call(&made).expect("it is recordable"))
            .concat()
    };
    assert_eq!(
        in_small_letters(&night(b"Desk.EXAMPLE")),
        night(b"desk.example")
    );
}
