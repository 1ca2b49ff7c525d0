//! The bytes of extensions, written and read here without the help of either program.

use crate::area::Key;

/// The SHA-256 of the server's key in every call.
pub const HASH: [u8; 32] = [0x77; 32];

/// The bytes of a tack, and of a break signature.
const TACK: usize = 166;
const BREAK: usize = 128;

#[derive(Debug, Clone, Copy, PartialEq, Eq)]
pub struct Tack {
    pub key: Key,
    pub min_generation: u8,
    pub generation: u8,
    pub expiration: u32,
}

impl Tack {
    fn bytes(&self) -> Vec<u8> {
        let generations = [self.min_generation, self.generation];
        let expiration = self.expiration.to_be_bytes();
        let parts: [&[u8]; 5] = [&self.key, &generations, &expiration, &HASH, &[0x55; 64]];
        parts.concat()
    }

    fn read(bytes: &[u8; TACK]) -> Tack {
        let (key, rest) = bytes.split_first_chunk().expect("a tack begins with a key");
        Tack {
            key: *key,
            min_generation: rest[0],
            generation: rest[1],
            expiration: u32::from_be_bytes([rest[2], rest[3], rest[4], rest[5]]),
        }
    }
}

/// An extension of edition one.
pub fn extension(tack: Option<&Tack>, breaks: &[Key], activation: u8) -> Vec<u8> {
    let tack = tack.map(Tack::bytes).unwrap_or_default();
    let breaks: Vec<u8> = breaks
        .iter()
        .flat_map(|key| [*key, [0x66; 64]].concat())
        .collect();
    let mut bytes = vec![tack.len() as u8];
    bytes.extend(tack);
    bytes.extend((breaks.len() as u16).to_be_bytes());
    bytes.extend(breaks);
    bytes.push(activation);
    bytes
}

/// The tack of a well-formed extension of edition one, if it holds one.
pub fn tack(extension: &[u8]) -> Option<Tack> {
    let (&length, rest) = extension.split_first()?;
    let tack = (usize::from(length) == TACK).then_some(rest)?;
    Some(Tack::read(tack.first_chunk()?))
}

/// The keys of a well-formed extension's break signatures.
pub fn broken_keys(extension: &[u8]) -> Vec<Key> {
    let tack = extension.first().map_or(0, |&length| usize::from(length));
    // The tack stands between two lengths, and the activation behind all.
    let breaks = extension.get(tack + 3..).unwrap_or_default();
    let breaks = breaks.chunks_exact(BREAK);
    breaks
        .filter_map(|bytes| bytes.first_chunk().copied())
        .collect()
}

/// An extension of edition two.
pub fn extension_two(tacks: &[Tack], flags: u8) -> Vec<u8> {
    let tacks: Vec<u8> = tacks.iter().flat_map(Tack::bytes).collect();
    tacks_and_flags(&tacks, flags)
}

/// The length of the tacks, the tacks and the flags, whatever they are.
pub fn tacks_and_flags(tacks: &[u8], flags: u8) -> Vec<u8> {
    let length = tacks.len() as u16;
    [&length.to_be_bytes(), tacks, &[flags]].concat()
}

/// Where the target hash of the first tack stands in an extension of edition two, or of the second.
pub fn target_hash_in_two(tack: usize) -> usize {
    2 + TACK * tack + 70
}

#[test]
fn what_is_written_is_read() {
    let shown = Tack {
        key: std::array::from_fn(|place| place as u8),
        min_generation: 3,
        generation: 4,
        expiration: 0x01020304,
    };
    for broken in [vec![], vec![[7; 64]], vec![[7; 64], [8; 64]]] {
        let both = extension(Some(&shown), &broken, 1);
        assert_eq!(
            (tack(&both), broken_keys(&both)),
            (Some(shown), broken.clone())
        );
        let alone = extension(None, &broken, 1);
        assert_eq!((tack(&alone), broken_keys(&alone)), (None, broken));
    }
}
