//! The kinds of nights: whole ones, and every way to mangle one.

use super::{mangled, whole};
use crate::random::Random;

/// How a night is fed to the program.
#[derive(Clone, Copy)]
pub enum Feed {
    AtOnce,
    InPieces,
    /// The night is one of the longest calls, and the last bytes of each come with the next.
    EndsLate,
    Either,
}

/// How the reports on a kind of night must end.
#[derive(Clone, Copy, PartialEq, Eq)]
enum End {
    Bad,
    Total,
    Any,
}

/// A kind of night, with so many cases.
pub struct Kind {
    pub name: &'static str,
    pub cases: usize,
    pub feed: Feed,
    end: End,
    make: fn(usize, &mut Random) -> Vec<u8>,
}

impl Kind {
    /// The bytes of one case.
    pub fn night(&self, case: usize, random: &mut Random) -> Vec<u8> {
        (self.make)(case, random)
    }

    pub fn may_end(&self, is_total: bool) -> bool {
        match self.end {
            End::Bad => !is_total,
            End::Total => is_total,
            End::Any => true,
        }
    }
}

macro_rules! kinds {
    ($($name:literal, $cases:expr, $feed:ident, $end:ident, $module:ident::$make:ident;)*) => {
        &[$(Kind {
            name: $name,
            cases: $cases,
            feed: Feed::$feed,
            end: End::$end,
            make: $module::$make,
        }),*]
    };
}

#[rustfmt::skip]
pub const KINDS: &[Kind] = kinds! {
    "E4 and E5", 4, Either, Total, whole::e4_and_e5;
    "an expired tack that revokes", 4, Either, Total, whole::expired_tack_revokes;
    "no call at all", 3, Either, Total, whole::empty;
    "the bundled night", 2, Either, Total, whole::bundled;
    "random calls", 40, Either, Total, whole::random;
    "every name with capitals", 12, Either, Total, whole::every_name_with_capitals;
    "a full table", 6, Either, Total, whole::full;
    "above 200,000 bytes", 6, AtOnce, Total, whole::long;
    "above 200,000 bytes, in pieces", 6, InPieces, Total, whole::long;
    "the longest calls", 2, AtOnce, Total, whole::longest_calls;
    "the longest calls, their ends late", 6, EndsLate, Total, whole::longest_calls;
    "nearly the longest calls", 4, Either, Total, whole::long_calls;
    "the shortest calls", 2, Either, Total, whole::shortest_calls;
    "as long as a buffer", 3 * whole::BUFFERS.len(), Either, Total, whole::of_buffer;

    "as long as a buffer, cut off", 3 * whole::BUFFERS.len(), Either, Bad, whole::of_buffer_cut;
    "above 200,000 bytes, cut off", 6, Either, Bad, mangled::long_cut;
    "cut off after each byte of a call", mangled::CALL_LENGTH - 1, Either, Bad, mangled::cut_in_call;
    "cut off anywhere", 20, Either, Any, mangled::cut_anywhere;
    "cut off between calls", 6, Either, Total, mangled::cut_between_calls;
    "a call cut off before others", 20, Either, Any, mangled::cut_before_others;
    "a field in another place", 30, Either, Bad, mangled::field_moved;
    "a field in another place, no extension", 20, Either, Bad, mangled::field_moved_without_extension;
    "a field missing", 5, Either, Bad, mangled::field_missing;
    "the extension missing", 2, Either, Total, mangled::extension_missing;
    "a field twice", 6, Either, Bad, mangled::field_twice;
    "a length one too short", 5, Either, Bad, mangled::length_short;
    "a length one too long", 6, Either, Bad, mangled::length_long;
    "any other length", 24, Either, Any, mangled::length_any;
    "contents of a wrong length", mangled::WRONG_LENGTHS.len(), Either, Bad, mangled::contents_wrong;
    "contents at their limits", mangled::LIMITS.len(), Either, Total, mangled::contents_at_limits;
    "a wrong bit of the answers", 10, Either, Bad, mangled::answers_wrong;
    "any right bits of the answers", 16, Either, Total, mangled::answers_right;
    "an unknown or another tag", 6 * mangled::TAGS.len(), Either, Bad, mangled::tag_wrong;
    "bytes behind the last call", 20, Either, Bad, mangled::bytes_behind;
    "calls exchanged", 5, Either, Total, mangled::calls_exchanged;
    "a call twice", 5, Either, Total, mangled::call_twice;
    "a byte too many", 20, Either, Any, mangled::byte_more;
    "a byte too few", 20, Either, Any, mangled::byte_less;
    "a bit flipped", 60, Either, Any, mangled::bit_flipped;
    "a bit flipped in a tag or a length", 30, Either, Any, mangled::header_flipped;
    "some bytes changed", 20, Either, Any, mangled::bytes_changed;
    "nothing but random bytes", 10, Either, Bad, mangled::random_bytes;
};

/// By the second program alone.
#[test]
fn reports_end_as_they_must() {
    let mut random = Random::new(1);
    for kind in KINDS {
        for case in 0..kind.cases {
            let report = second::report(&kind.night(case, &mut random));
            let is_bad = report.ends_with(b"bad\n");
            assert!(kind.may_end(!is_bad), "{}, case {case}", kind.name);
        }
    }
}
