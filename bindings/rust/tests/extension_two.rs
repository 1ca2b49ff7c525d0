//! The extension of edition two through the safe crate: what is written is read back, and all else is refused.

use tack::extension::WriteError;
use tack::extension_two::{self, Extension, MAX_LENGTH};

/// Two tacks whose every byte is another.
fn tacks() -> Vec<u8> {
    (0..332u16).map(|place| (place % 251) as u8).collect()
}

/// The tacks and the flags as a server sends them.
fn sent(tacks: &[u8], flags: u8) -> Vec<u8> {
    let length = tacks.len() as u16;
    [&length.to_be_bytes()[..], tacks, &[flags]].concat()
}

/// The number and the alert, if the bytes are malformed.
fn refused(bytes: &[u8]) -> Option<(u8, u8)> {
    let malformed = Extension::read(bytes).err()?;
    Some((malformed.number(), malformed.alert()))
}

#[test]
fn every_good_extension_goes_round() {
    let tacks = tacks();
    let good = [(166, 0), (166, 1), (332, 0), (332, 1), (332, 2), (332, 3)];
    for (length, flags) in good {
        let sent = sent(&tacks[..length], flags);
        let mut out = vec![0xa5; MAX_LENGTH + 1];
        let written = extension_two::write(&tacks[..length], flags, &mut out);
        assert_eq!(written, Ok(sent.len()));
        assert_eq!(out[..sent.len()], sent[..]);
        assert!(out[sent.len()..].iter().all(|&byte| byte == 0xa5));

        let read = Extension::read(&sent).expect("it is well-formed");
        assert_eq!((read.tack_bytes(), read.flags()), (&tacks[..length], flags));
        assert_eq!(read.first_enabled(), flags & 1 != 0);
        assert_eq!(read.second_enabled(), flags & 2 != 0);
        assert_eq!(read.first().public_key()[..], tacks[..64]);
        let second = read.second().map(|tack| &tack.signature()[..]);
        assert_eq!(second, (length == 332).then_some(&tacks[268..]));
    }
}

#[test]
fn every_other_flags_byte_is_refused() {
    let tacks = tacks();
    for (length, most) in [(166, 1), (332, 3)] {
        for flags in most + 1..=255 {
            assert_eq!(refused(&sent(&tacks[..length], flags)), Some((16, 42)));
            let written = extension_two::write(&tacks[..length], flags, &mut [0; MAX_LENGTH]);
            assert_eq!(written, Err(WriteError::BadPart));
        }
    }
}

#[test]
fn every_other_length_is_refused() {
    let bytes = [tacks(), tacks()].concat();
    for length in (0..500).filter(|length| ![166, 332].contains(length)) {
        let part = &bytes[..length];
        assert_eq!(refused(&sent(part, 0)), Some((16, 42)));
        let written = extension_two::write(part, 0, &mut [0; 600]);
        assert_eq!(written, Err(WriteError::BadPart));
    }
    for length in [166, 332] {
        let whole = sent(&bytes[..length], 1);
        for end in 0..whole.len() {
            assert_eq!(refused(&whole[..end]), Some((16, 42)));
        }
        assert_eq!(refused(&[&whole[..], &[0]].concat()), Some((16, 42)));
    }
}

#[test]
fn an_output_too_small_by_one_stays_as_it_was() {
    let tacks = tacks();
    for length in [166, 332] {
        let mut out = vec![0xa5; length + 2];
        let written = extension_two::write(&tacks[..length], 1, &mut out);
        assert_eq!(written, Err(WriteError::NoSpace));
        assert!(out.iter().all(|&byte| byte == 0xa5));
    }
}
