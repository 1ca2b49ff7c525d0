//! Names and keys that share a mark, as an adversary would choose them.
//!
//! The soundness check of the proved library gives each used name and each used key a mark, a number below 8,192, and compares a
//! slot with all before it where its mark was seen before; in edition two where it was seen twice before, or once with the same
//! key. No function of the library tells marks, so they are computed here again. Should the library get other marks, these names
//! and keys stay good, but share a mark no more.

use crate::area::Key;
use std::iter;
use std::sync::OnceLock;

/// So many names of each length there are, and so many keys.
const NAMES: usize = 1_000;
const KEYS: usize = 256;

/// So many bytes at the end of a name vary.
const END: usize = 8;

/// A well-formed name of 20 bytes; other numbers below 1,000 give other names with the same mark.
pub fn name_of_20(number: usize) -> Vec<u8> {
    static OF_20: OnceLock<Vec<Vec<u8>>> = OnceLock::new();
    OF_20.get_or_init(|| names(20))[number].clone()
}

/// The same of 253 bytes, the longest names there are.
pub fn name_of_253(number: usize) -> Vec<u8> {
    static OF_253: OnceLock<Vec<Vec<u8>>> = OnceLock::new();
    OF_253.get_or_init(|| names(253))[number].clone()
}

/// A key; other numbers below 256 give other keys with the same mark. Number 0 is all zero.
pub fn key(number: usize) -> Key {
    static ALL: OnceLock<Vec<Key>> = OnceLock::new();
    ALL.get_or_init(keys)[number]
}

/// They begin alike, and the last bytes vary first: the library compares names from the front, and has to look far.
fn names(length: usize) -> Vec<Vec<u8>> {
    let front = front(length - END);
    let (whole_words, begun) = front.split_at(front.len() / 8 * 8);
    let hashed = with_words(0, whole_words);
    let mut last_words = [0; 16];
    last_words[..begun.len()].copy_from_slice(begun);
    let mut mark = |end: &[u8; END]| {
        last_words[begun.len()..][..END].copy_from_slice(end);
        mark_of(with_words(hashed, &last_words))
    };
    let wanted = mark(&FIRST_END);
    iter::successors(Some(FIRST_END), end_behind)
        .filter(|end| mark(end) == wanted)
        .map(|end| [&front[..], &end].concat())
        .take(NAMES)
        .collect()
}

/// Labels of one letter, since the test of a long name goes from label to label.
fn front(length: usize) -> Vec<u8> {
    let letter = |place| if place % 2 == 1 { b'.' } else { b'm' };
    (0..length).map(letter).collect()
}

const FIRST_END: [u8; END] = [b'0'; END];

/// The next end of digits and letters. With so many of them more than 128 names share a mark and differ in the last four bytes
/// alone. Without z, since no name of the pool ends in it.
fn end_behind(end: &[u8; END]) -> Option<[u8; END]> {
    let mut end = *end;
    for byte in end.iter_mut().rev() {
        *byte = match *byte {
            b'9' => b'a',
            b'y' => b'0',
            other => other + 1,
        };
        if *byte != b'0' {
            return Some(end);
        }
    }
    None
}

/// They differ in their first eight bytes alone: the library compares keys from the last word to the first.
fn keys() -> Vec<Key> {
    let beginning = |word: u64| {
        let mut key = [0; 64];
        key[..8].copy_from_slice(&word.to_le_bytes());
        key
    };
    let wanted = key_mark(&[0; 64]);
    (0..)
        .map(beginning)
        .filter(|key| key_mark(key) == wanted)
        .take(KEYS)
        .collect()
}

/// By the first eight bytes and the last.
fn key_mark(key: &Key) -> u64 {
    let first = with_words(0, &key[..8]);
    mark_of(with_words(first, &key[56..]))
}

/// The hash with more words in it, each little-endian in eight bytes.
fn with_words(hash: u64, bytes: &[u8]) -> u64 {
    let words = bytes.chunks_exact(8).map(|bytes| {
        let mut word = [0; 8];
        word.copy_from_slice(bytes);
        u64::from_le_bytes(word)
    });
    words.fold(hash, |hash, word| hash.rotate_left(13) ^ word)
}

/// Thirteen bits that all 64 of a hash go into.
fn mark_of(hash: u64) -> u64 {
    const HALF: u64 = 1 << 32;
    let low = hash % HALF * 2_654_435_761;
    let high = hash / HALF * 3_266_489_917;
    let both = low ^ high;
    let folded = both ^ (both >> 32);
    ((folded % HALF * 2_654_435_761) >> 22) % 8192
}

#[cfg(test)]
mod tests {
    use super::*;
    use std::collections::BTreeSet;

    /// By all of the name; zeros fill the last word, and are a word where the name's last is full.
    fn name_mark(name: &[u8]) -> u64 {
        let mut padded = [0; 256];
        padded[..name.len()].copy_from_slice(name);
        mark_of(with_words(0, &padded[..name.len() / 8 * 8 + 8]))
    }

    fn count<T: Ord>(all: impl Iterator<Item = T>) -> usize {
        all.collect::<BTreeSet<T>>().len()
    }

    fn are_names(name: fn(usize) -> Vec<u8>, length: usize) {
        let names = || (0..NAMES).map(name);
        assert_eq!(count(names().map(|name| name_mark(&name))), 1);
        assert_eq!(count(names()), NAMES);
        assert!(names().all(|name| name.len() == length && second::is_well_formed(&name)));
        assert!(names().all(|name| !name.ends_with(b"z")));
        assert_eq!(
            count((0..128).map(|number| name(number)[..length - 4].to_vec())),
            1
        );
    }

    #[test]
    fn names_share_a_mark() {
        are_names(name_of_20, 20);
        are_names(name_of_253, 253);
    }

    #[test]
    fn keys_share_a_mark() {
        let keys = || (0..KEYS).map(key);
        assert_eq!(count(keys().map(|key| key_mark(&key))), 1);
        assert_eq!(count(keys()), KEYS);
        assert!(keys().all(|key| key[8..] == [0; 56]));
        assert_eq!(key(0), [0; 64]);
    }

    #[test]
    fn other_names_and_keys_have_other_marks() {
        let name = |number| crate::pool::name(1, number);
        assert!(count((0..128).map(|number| name_mark(&name(number)))) > 120);
        let key = |number| crate::pool::key(1, number);
        assert!(count((0..64).map(|number| key_mark(&key(number)))) > 60);
    }
}
