//! The TACK extension of edition one: reader, parsed form and writers.
//!
//! In order: a one-byte length, the tack, a two-byte length, the break
//! signatures, one activation byte. Nothing follows.

use crate::answer::{
    alert_of, EXTENSION_MALFORMED, READ_OR_WRITTEN, WRITER_BAD_PART, WRITER_NO_SPACE,
};
use crate::minutes::Minutes;
use crate::records::PublicKey;

pub const TACK_LENGTH: usize = 166;
pub const BREAK_SIGNATURE_LENGTH: usize = 128;
pub const MOST_BREAK_SIGNATURES: usize = 8;

/// The part of a tack before its signature.
const SIGNED_TACK_LENGTH: usize = 102;
const SIGNED_PREFIX: &[u8; 8] = b"tack_sig";

/// The reader's answer. The activation, in edition two the flags, of a refused
/// reading is 0.
#[derive(Debug, Clone, Copy, PartialEq, Eq)]
pub struct Reading {
    pub number: u8,
    pub alert: u8,
    pub activation: u8,
}

/// A part of the caller's bytes; an empty part is `{0, 0}`.
#[derive(Debug, Clone, Copy, PartialEq, Eq)]
pub struct Span {
    pub start: usize,
    pub length: usize,
}

impl Span {
    pub(crate) fn new(start: usize, part: &[u8]) -> Span {
        let length = part.len();
        let start = if length == 0 { 0 } else { start };
        Span { start, length }
    }
}

/// A writer's answer; a refusal has written nothing.
#[derive(Debug, Clone, Copy, PartialEq, Eq)]
pub struct Writing {
    pub number: u8,
    pub alert: u8,
    pub written: usize,
}

impl Writing {
    pub(crate) fn new(number: u8, written: usize) -> Writing {
        let alert = alert_of(number);
        Writing {
            number,
            alert,
            written,
        }
    }
}

#[derive(Debug, Clone, PartialEq, Eq)]
pub struct Tack {
    pub public_key: PublicKey,
    pub min_generation: u8,
    pub generation: u8,
    pub expiration: Minutes,
    pub target_hash: [u8; 32],
    pub signature: [u8; 64],
}

impl Tack {
    /// Nothing unless the bytes are exactly one tack.
    pub fn parse(bytes: &[u8]) -> Option<Tack> {
        let (public_key, rest) = bytes.split_first_chunk()?;
        let ([min_generation, generation], rest) = rest.split_first_chunk()?;
        let (expiration, rest) = rest.split_first_chunk()?;
        let (target_hash, rest) = rest.split_first_chunk()?;
        Some(Tack {
            public_key: *public_key,
            min_generation: *min_generation,
            generation: *generation,
            expiration: Minutes::from_field(*expiration),
            target_hash: *target_hash,
            signature: rest.try_into().ok()?,
        })
    }
}

#[derive(Debug, Clone, PartialEq, Eq)]
pub struct BreakSignature {
    pub public_key: PublicKey,
    pub signature: [u8; 64],
}

impl BreakSignature {
    /// Nothing unless the bytes are exactly one break signature.
    pub fn parse(bytes: &[u8]) -> Option<BreakSignature> {
        let (public_key, rest) = bytes.split_first_chunk()?;
        Some(BreakSignature {
            public_key: *public_key,
            signature: rest.try_into().ok()?,
        })
    }
}

#[derive(Debug, Clone, PartialEq, Eq)]
pub struct Extension {
    pub tack: Option<Tack>,
    pub breaks: Vec<BreakSignature>,
    pub activation: bool,
}

impl Extension {
    /// What a connection without the extension amounts to.
    pub fn absent() -> Extension {
        Extension {
            tack: None,
            breaks: Vec::new(),
            activation: false,
        }
    }

    /// Nothing if the bytes are malformed.
    pub fn parse(bytes: &[u8]) -> Option<Extension> {
        let parts = Parts::split(bytes)?;
        let breaks = parts.breaks.chunks_exact(BREAK_SIGNATURE_LENGTH);
        Some(Extension {
            tack: Tack::parse(parts.tack),
            breaks: breaks.filter_map(BreakSignature::parse).collect(),
            activation: parts.activation == 1,
        })
    }
}

/// The extension taken apart, each part still the caller's bytes.
struct Parts<'a> {
    tack: &'a [u8],
    breaks: &'a [u8],
    activation: u8,
}

impl<'a> Parts<'a> {
    fn split(bytes: &'a [u8]) -> Option<Parts<'a>> {
        let ([tack_length], rest) = bytes.split_first_chunk()?;
        let (tack, rest) = rest.split_at_checked(usize::from(*tack_length))?;
        let (breaks_length, rest) = rest.split_first_chunk()?;
        let breaks_length = u16::from_be_bytes(*breaks_length);
        let (breaks, rest) = rest.split_at_checked(usize::from(breaks_length))?;
        let [activation] = *rest else {
            return None;
        };
        let parts = Parts {
            tack,
            breaks,
            activation,
        };
        parts.are_allowed().then_some(parts)
    }

    /// The one rule for the lengths and the activation, whether read or written.
    fn are_allowed(&self) -> bool {
        (self.tack.is_empty() || self.tack.len() == TACK_LENGTH)
            && self.breaks.len().is_multiple_of(BREAK_SIGNATURE_LENGTH)
            && self.breaks.len() <= MOST_BREAK_SIGNATURES * BREAK_SIGNATURE_LENGTH
            && self.activation <= 1
    }

    /// The allowed parts joined, or nothing. Both lengths then fit their fields.
    fn join(&self) -> Option<Vec<u8>> {
        if !self.are_allowed() {
            return None;
        }
        let tack_length = u8::try_from(self.tack.len()).ok()?;
        let breaks_length = u16::try_from(self.breaks.len()).ok()?;
        let mut bytes = vec![tack_length];
        bytes.extend_from_slice(self.tack);
        bytes.extend_from_slice(&breaks_length.to_be_bytes());
        bytes.extend_from_slice(self.breaks);
        bytes.push(self.activation);
        Some(bytes)
    }
}

pub fn read(bytes: &[u8]) -> Reading {
    let (number, activation) = match Parts::split(bytes) {
        Some(parts) => (READ_OR_WRITTEN, parts.activation),
        None => (EXTENSION_MALFORMED, 0),
    };
    let alert = alert_of(number);
    Reading {
        number,
        alert,
        activation,
    }
}

/// Where the tack stands in the bytes.
pub fn tack_span(bytes: &[u8]) -> Span {
    match Parts::split(bytes) {
        Some(parts) => Span::new(1, parts.tack),
        None => Span::new(0, &[]),
    }
}

/// Where the break signatures stand in the bytes.
pub fn breaks_span(bytes: &[u8]) -> Span {
    match Parts::split(bytes) {
        Some(parts) => Span::new(1 + parts.tack.len() + 2, parts.breaks),
        None => Span::new(0, &[]),
    }
}

pub fn write(tack: &[u8], breaks: &[u8], activation: u8, out: &mut [u8]) -> Writing {
    let parts = Parts {
        tack,
        breaks,
        activation,
    };
    match parts.join() {
        Some(bytes) => put(&bytes, out),
        None => Writing::new(WRITER_BAD_PART, 0),
    }
}

/// Writes what the signature of a tack is made over, for a verifier.
pub fn signed_bytes(tack: &[u8], out: &mut [u8]) -> Writing {
    if tack.len() != TACK_LENGTH {
        return Writing::new(WRITER_BAD_PART, 0);
    }
    let mut bytes = SIGNED_PREFIX.to_vec();
    bytes.extend_from_slice(&tack[..SIGNED_TACK_LENGTH]);
    put(&bytes, out)
}

/// Copies to the start of the output, or refuses if the output is too small.
pub(crate) fn put(bytes: &[u8], out: &mut [u8]) -> Writing {
    match out.get_mut(..bytes.len()) {
        Some(place) => {
            place.copy_from_slice(bytes);
            Writing::new(READ_OR_WRITTEN, bytes.len())
        }
        None => Writing::new(WRITER_NO_SPACE, 0),
    }
}
