//! Building calls of edition two from bytes, without help from the writer under
//! test.

use second::{judge_two, ConnectionTwo, Judgement};

use crate::calls::{empty_area, tack, Area, HASH};

pub fn empty_area_two() -> Area {
    let mut area = empty_area();
    area[4] = 1;
    area
}

pub fn extension_two(tacks: &[Vec<u8>], flags: u8) -> Vec<u8> {
    let tacks = tacks.concat();
    let mut bytes = (tacks.len() as u16).to_be_bytes().to_vec();
    bytes.extend(tacks);
    bytes.push(flags);
    bytes
}

/// Tacks with min_generation and generation 3 that never expire.
pub fn showing_two(keys: &[[u8; 64]], flags: u8) -> Vec<u8> {
    let tacks = keys.iter().map(|key| tack(*key, 3, 3, u32::MAX));
    extension_two(&tacks.collect::<Vec<_>>(), flags)
}

/// The arguments of one call of the judge; at first every check passes.
#[derive(Clone)]
pub struct CallTwo {
    pub clock: u64,
    pub name: Vec<u8>,
    pub extension: Option<Vec<u8>>,
    pub hash: Vec<u8>,
    pub handshake_finished: bool,
    pub keys_are_points: u8,
    pub signatures_correct: u8,
}

impl CallTwo {
    pub fn at(clock: u64, name: &str) -> CallTwo {
        CallTwo {
            clock,
            name: name.as_bytes().to_vec(),
            extension: None,
            hash: HASH.to_vec(),
            handshake_finished: true,
            keys_are_points: 0b11,
            signatures_correct: 0b11,
        }
    }

    pub fn with(mut self, extension: Vec<u8>) -> CallTwo {
        self.extension = Some(extension);
        self
    }

    /// With well-formed tacks of these keys.
    pub fn showing(self, keys: &[[u8; 64]], flags: u8) -> CallTwo {
        self.with(showing_two(keys, flags))
    }

    pub fn connection(&self) -> ConnectionTwo<'_> {
        ConnectionTwo {
            clock: self.clock,
            name: &self.name,
            extension: self.extension.as_deref(),
            spki_sha256: &self.hash,
            handshake_finished: self.handshake_finished,
            keys_are_points: self.keys_are_points,
            signatures_correct: self.signatures_correct,
        }
    }

    pub fn judge(&self, area: &mut [u8]) -> Judgement {
        judge_two(area, &self.connection())
    }

    /// The number, with nothing said about room.
    pub fn number(&self, area: &mut [u8]) -> u8 {
        self.judge(area).number
    }

    /// Asserts a refusal: its number, its alert, an untouched area.
    #[track_caller]
    pub fn is_refused(&self, area: &[u8], number: u8, alert: u8) {
        let mut after = area.to_vec();
        let expected = Judgement {
            number,
            alert,
            no_room: false,
        };
        assert_eq!(self.judge(&mut after), expected);
        assert!(after == area, "a refusal changed the area");
    }
}
