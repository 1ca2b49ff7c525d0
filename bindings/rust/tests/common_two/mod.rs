//! The tacks and the connection that the tests of edition two begin with.

use tack::extension_two;
use tack::table::{ChecksTwo, ConnectionTwo, Edition, PinTable};

pub const HASH: [u8; 32] = [0x77; 32];

/// A tack. A key of these tests is one byte, 64 times.
#[derive(Clone, Copy)]
pub struct Tack {
    pub key: u8,
    pub min_generation: u8,
    pub generation: u8,
    pub expiration: u32,
    pub target_hash: [u8; 32],
}

impl Tack {
    fn bytes(&self) -> Vec<u8> {
        let generations = [self.min_generation, self.generation];
        let expiration = self.expiration.to_be_bytes();
        let (key, hash, signature) = ([self.key; 64], self.target_hash, [0x55; 64]);
        let parts: [&[u8]; 5] = [&key, &generations, &expiration, &hash, &signature];
        parts.concat()
    }
}

/// A tack of generation 3 that does not expire.
pub fn tack(key: u8) -> Tack {
    Tack {
        key,
        min_generation: 3,
        generation: 3,
        expiration: u32::MAX,
        target_hash: HASH,
    }
}

/// An extension with these tacks and flags.
pub fn shown(tacks: &[Tack], flags: u8) -> Vec<u8> {
    let tacks: Vec<u8> = tacks.iter().flat_map(Tack::bytes).collect();
    let mut out = vec![0; 3 + tacks.len()];
    let written = extension_two::write(&tacks, flags, &mut out);
    assert_eq!(written, Ok(out.len()));
    out
}

/// A connection that passes at 1000.
pub fn good(extension: &[u8]) -> ConnectionTwo<'_> {
    ConnectionTwo::new(1000, b"a.b", &HASH, ChecksTwo::all_passed()).with_extension(extension)
}

/// A table of edition two with pins of `a.b` under the keys 0x11 and 0x22, made at 1000 with floor 3.
pub fn with_two_pins() -> PinTable {
    let mut pins = PinTable::of_edition(Edition::Two);
    let both = shown(&[tack(0x11), tack(0x22)], 0b11);
    pins.judge_two(&good(&both)).expect("a verdict");
    pins
}
