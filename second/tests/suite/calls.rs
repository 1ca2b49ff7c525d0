//! Building calls from bytes, without help from the writers under test.

use second::{judge, Connection, Judgement, AREA_LENGTH};

pub const HASH: [u8; 32] = [0x77; 32];

pub type Area = Vec<u8>;

pub fn empty_area() -> Area {
    vec![0; AREA_LENGTH]
}

pub fn key(number: u8) -> [u8; 64] {
    [number; 64]
}

pub fn tack(key: [u8; 64], min_generation: u8, generation: u8, expiration: u32) -> Vec<u8> {
    let mut bytes = key.to_vec();
    bytes.extend([min_generation, generation]);
    bytes.extend(expiration.to_be_bytes());
    bytes.extend(HASH);
    bytes.extend([0x55; 64]);
    bytes
}

pub fn break_signature(key: [u8; 64]) -> Vec<u8> {
    let mut bytes = key.to_vec();
    bytes.extend([0x66; 64]);
    bytes
}

pub fn extension(tack: &[u8], breaks: &[u8], activation: u8) -> Vec<u8> {
    let mut bytes = vec![tack.len() as u8];
    bytes.extend(tack);
    bytes.extend((breaks.len() as u16).to_be_bytes());
    bytes.extend(breaks);
    bytes.push(activation);
    bytes
}

/// A tack with min_generation and generation 3 that never expires, enabled.
pub fn showing(key: [u8; 64]) -> Vec<u8> {
    extension(&tack(key, 3, 3, u32::MAX), &[], 1)
}

/// The same tack, disabled.
pub fn showing_disabled(key: [u8; 64]) -> Vec<u8> {
    extension(&tack(key, 3, 3, u32::MAX), &[], 0)
}

pub fn breaking(keys: &[[u8; 64]]) -> Vec<u8> {
    let breaks: Vec<u8> = keys.iter().flat_map(|key| break_signature(*key)).collect();
    extension(&[], &breaks, 0)
}

/// A field of a recorded call.
pub fn field(tag: u8, value: &[u8]) -> Vec<u8> {
    let mut bytes = vec![tag];
    bytes.extend((value.len() as u16).to_be_bytes());
    bytes.extend(value);
    bytes
}

/// The arguments of one call of the judge; at first every check passes, and the
/// old way is not asked for.
#[derive(Clone)]
pub struct Call {
    pub clock: u64,
    pub name: Vec<u8>,
    pub extension: Option<Vec<u8>>,
    pub hash: Vec<u8>,
    pub handshake_finished: bool,
    pub key_is_point: bool,
    pub signature_correct: bool,
    pub breaks_correct: u8,
    pub learn_disabled: bool,
}

impl Call {
    pub fn at(clock: u64, name: &str) -> Call {
        Call {
            clock,
            name: name.as_bytes().to_vec(),
            extension: None,
            hash: HASH.to_vec(),
            handshake_finished: true,
            key_is_point: true,
            signature_correct: true,
            breaks_correct: 0xFF,
            learn_disabled: false,
        }
    }

    pub fn with(mut self, extension: Vec<u8>) -> Call {
        self.extension = Some(extension);
        self
    }

    /// With the explicit yes.
    pub fn in_the_old_way(mut self) -> Call {
        self.learn_disabled = true;
        self
    }

    /// By the default and in the old way.
    pub fn in_both_ways(&self) -> [Call; 2] {
        [false, true].map(|learn_disabled| Call {
            learn_disabled,
            ..self.clone()
        })
    }

    pub fn connection(&self) -> Connection<'_> {
        Connection {
            clock: self.clock,
            name: &self.name,
            extension: self.extension.as_deref(),
            spki_sha256: &self.hash,
            handshake_finished: self.handshake_finished,
            key_is_point: self.key_is_point,
            signature_correct: self.signature_correct,
            breaks_correct: self.breaks_correct,
            learn_disabled: self.learn_disabled,
        }
    }

    pub fn judge(&self, area: &mut [u8]) -> Judgement {
        judge(area, &self.connection())
    }

    /// The fields of the recorded call, the end among them. None says whether
    /// the call asks for the old way.
    pub fn fields(&self) -> Vec<Vec<u8>> {
        let answers = u8::from(self.handshake_finished)
            + 2 * u8::from(self.key_is_point)
            + 4 * u8::from(self.signature_correct);
        let mut fields = vec![
            field(1, &(self.clock as u32).to_be_bytes()),
            field(2, &self.name),
            field(3, &[answers, self.breaks_correct]),
            field(4, &self.hash),
        ];
        fields.extend(self.extension.iter().map(|bytes| field(5, bytes)));
        fields.push(field(6, &[]));
        fields
    }

    pub fn recorded(&self) -> Vec<u8> {
        self.fields().concat()
    }

    /// The number, with nothing said about room.
    pub fn number(&self, area: &mut [u8]) -> u8 {
        self.judge(area).number
    }

    /// Asserts a refusal in both ways: its number, its alert, an untouched area.
    #[track_caller]
    pub fn is_refused(&self, area: &[u8], number: u8, alert: u8) {
        let expected = Judgement {
            number,
            alert,
            no_room: false,
        };
        for call in self.in_both_ways() {
            let mut after = area.to_vec();
            assert_eq!(call.judge(&mut after), expected);
            assert!(after == area, "a refusal changed the area");
        }
    }
}

pub fn key_slot(area: &[u8], slot: usize) -> &[u8] {
    let start = 8 + 72 * slot;
    &area[start..start + 72]
}

pub fn name_slot(area: &[u8], slot: usize) -> &[u8] {
    let start = 4616 + 272 * slot;
    &area[start..start + 272]
}

/// The bytes of the area but for the latest clock.
pub fn records(area: &[u8]) -> &[u8] {
    &area[4..]
}

pub fn latest(area: &[u8]) -> u32 {
    u32::from_be_bytes([area[0], area[1], area[2], area[3]])
}
