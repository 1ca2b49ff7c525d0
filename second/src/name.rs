//! Host names: labels joined by dots.
//!
//! Callers may write capitals; a table keeps small letters only. So there are
//! two questions: whether a caller's name is well-formed once folded, and
//! whether a name may stand in a table as it is.

pub const LONGEST_NAME: usize = 253;
const LONGEST_LABEL: usize = 63;

/// Whether a caller's name is well-formed, in capitals or in small letters.
pub fn is_well_formed(name: &[u8]) -> bool {
    FoldedName::of(name).is_some()
}

/// Whether a name may stand in a table. Capitals and a final dot are refused,
/// so a recorded name has one spelling only.
pub fn is_well_formed_in_table(name: &[u8]) -> bool {
    name.len() <= LONGEST_NAME && name.split(|&byte| byte == b'.').all(is_label)
}

/// A caller's name as a table keeps it. Pins are looked up, made and removed by
/// this type only, so that no call forgets to fold.
pub(crate) struct FoldedName {
    padded: [u8; LONGEST_NAME],
    length: usize,
}

impl FoldedName {
    /// A-Z become a-z and every other byte stays; nothing if the name is
    /// malformed even so.
    pub(crate) fn of(name: &[u8]) -> Option<FoldedName> {
        let length = name.len();
        let mut padded = [0; LONGEST_NAME];
        let folded = padded.get_mut(..length)?;
        folded.copy_from_slice(name);
        folded.make_ascii_lowercase();
        is_well_formed_in_table(folded).then_some(FoldedName { padded, length })
    }

    pub(crate) fn bytes(&self) -> &[u8] {
        &self.padded[..self.length]
    }
}

fn is_label(label: &[u8]) -> bool {
    (1..=LONGEST_LABEL).contains(&label.len())
        && label.iter().all(|&byte| is_label_byte(byte))
        && label.first() != Some(&b'-')
        && label.last() != Some(&b'-')
}

fn is_label_byte(byte: u8) -> bool {
    matches!(byte, b'a'..=b'z' | b'0'..=b'9' | b'-')
}
