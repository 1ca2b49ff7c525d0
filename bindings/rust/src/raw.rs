//! The C interface on slices: answers with the papers' own numbers, for whoever wants those rather than `Result`.
//!
//! This module has all the unsafe code of the crate: one call each, with a pointer and a length that are one slice's.

/// 9 with the activation, or 16.
#[repr(C)]
#[derive(Debug, Clone, Copy, PartialEq, Eq)]
pub struct Reading {
    /// 9 or 16.
    pub number: u8,
    /// The TLS alert that goes with the number, or 0.
    pub alert: u8,
    /// 0 disabled, 1 enabled; in edition two the flags.
    pub activation: u8,
}

/// A part of the caller's bytes; an empty part is 0 and 0.
#[repr(C)]
#[derive(Debug, Clone, Copy, PartialEq, Eq)]
pub struct Span {
    /// Where the part starts.
    pub start: usize,
    /// How many bytes it has.
    pub length: usize,
}

/// 9 with the number of bytes written, 25 or 26.
#[repr(C)]
#[derive(Debug, Clone, Copy, PartialEq, Eq)]
pub struct Writing {
    /// 9, 25 or 26.
    pub number: u8,
    /// No alert goes with a writer's answer: 0.
    pub alert: u8,
    /// The number of bytes written from the start of the output.
    pub written: usize,
}

/// A verdict, 0 to 2, or a refusal, 10 to 24 or 27.
#[repr(C)]
#[derive(Debug, Clone, Copy, PartialEq, Eq)]
pub struct Judgement {
    /// 0 to 2, 10 to 24, or 27.
    pub number: u8,
    /// The TLS alert that goes with the number, or 0.
    pub alert: u8,
    /// Whether the table had no slot for a pin that was due.
    pub no_room: bool,
}

/// Deletion: 3, 4, or 10 to 12. Starting: 7 or 10.
#[repr(C)]
#[derive(Debug, Clone, Copy, PartialEq, Eq)]
pub struct Outcome {
    /// 3, 4, 7, or 10 to 12.
    pub number: u8,
    /// No alert goes with deletion or starting: 0.
    pub alert: u8,
}

/// 5 without an end, 6 with one, 4 where there is no such record, or 10 to 13; a field without meaning is 0.
#[repr(C)]
#[derive(Debug, Clone, Copy, PartialEq, Eq)]
pub struct Inspection {
    /// 4 to 6, or 10 to 13.
    pub number: u8,
    /// No alert goes with inspection: 0.
    pub alert: u8,
    /// The key's floor: generations below it are revoked.
    pub floor: u8,
    /// When the record was made, in minutes since 1970.
    pub initial: u32,
    /// When the pin ends, in minutes since 1970.
    pub end: u32,
    /// The end minus the given clock.
    pub minutes_left: i64,
}

/// The arguments of `tack_judge` besides the table; `tack_call_write` takes all but the last of them, and an output.
#[derive(Debug, Clone, Copy)]
pub struct Connection<'a> {
    /// Minutes since 1970.
    pub clock: u64,
    /// The server's host name: `tack_judge` takes A-Z as a-z, `tack_call_write` writes the name as it is.
    pub name: &'a [u8],
    /// Whether an extension came.
    pub extension_came: bool,
    /// Its bytes, ignored where none came.
    pub extension: &'a [u8],
    /// The SHA-256 of the server's SubjectPublicKeyInfo.
    pub spki_sha256: &'a [u8],
    /// Whether the handshake finished.
    pub handshake_finished: bool,
    /// Whether the tack key is a P-256 point.
    pub key_is_point: bool,
    /// Whether the tack signature is correct.
    pub signature_correct: bool,
    /// Bit i, the lowest being 0, says that break signature i is correct.
    pub breaks_correct: u8,
    /// Whether a pin is made although the server is disabled. A recorded call has no place for it: `replay` always says yes.
    pub learn_disabled: bool,
}

/// The arguments of `tack2_judge` besides the table.
#[derive(Debug, Clone, Copy)]
pub struct ConnectionTwo<'a> {
    /// Minutes since 1970.
    pub clock: u64,
    /// The server's host name: A-Z is taken as a-z.
    pub name: &'a [u8],
    /// Whether an extension came.
    pub extension_came: bool,
    /// Its bytes, ignored where none came.
    pub extension: &'a [u8],
    /// The SHA-256 of the server's SubjectPublicKeyInfo.
    pub spki_sha256: &'a [u8],
    /// Whether the handshake finished.
    pub handshake_finished: bool,
    /// Bit 0 says that the key of the first tack is a P-256 point, bit 1 that the key of the second is.
    pub keys_are_points: u8,
    /// Bit 0 says that the signature of the first tack is correct, bit 1 that the signature of the second is.
    pub signatures_correct: u8,
}

mod library {
    use super::{Inspection, Judgement, Outcome, Reading, Span, Writing};

    // As include/tack.h declares them.
    extern "C" {
        pub fn tack_extension_read(bytes: *const u8, length: usize) -> Reading;
        pub fn tack_extension_tack(bytes: *const u8, length: usize) -> Span;
        pub fn tack_extension_breaks(bytes: *const u8, length: usize) -> Span;
        pub fn tack_extension_write(
            tack: *const u8,
            tack_length: usize,
            breaks: *const u8,
            breaks_length: usize,
            activation: u8,
            out: *mut u8,
            out_length: usize,
        ) -> Writing;
        pub fn tack2_extension_read(bytes: *const u8, length: usize) -> Reading;
        pub fn tack2_extension_tack(bytes: *const u8, length: usize, second: bool) -> Span;
        pub fn tack2_extension_write(
            tacks: *const u8,
            tacks_length: usize,
            flags: u8,
            out: *mut u8,
            out_length: usize,
        ) -> Writing;
        pub fn tack_signed_bytes(
            tack: *const u8,
            tack_length: usize,
            out: *mut u8,
            out_length: usize,
        ) -> Writing;
        pub fn tack_name_well_formed(name: *const u8, length: usize) -> bool;
        pub fn tack_judge(
            table: *mut u8,
            table_length: usize,
            clock: u64,
            name: *const u8,
            name_length: usize,
            extension_came: bool,
            extension: *const u8,
            extension_length: usize,
            spki_sha256: *const u8,
            spki_sha256_length: usize,
            handshake_finished: bool,
            key_is_point: bool,
            signature_correct: bool,
            breaks_correct: u8,
            learn_disabled: bool,
        ) -> Judgement;
        pub fn tack2_judge(
            table: *mut u8,
            table_length: usize,
            clock: u64,
            name: *const u8,
            name_length: usize,
            extension_came: bool,
            extension: *const u8,
            extension_length: usize,
            spki_sha256: *const u8,
            spki_sha256_length: usize,
            handshake_finished: bool,
            keys_are_points: u8,
            signatures_correct: u8,
        ) -> Judgement;
        pub fn tack_delete(
            table: *mut u8,
            table_length: usize,
            name: *const u8,
            name_length: usize,
        ) -> Outcome;
        pub fn tack_inspect(
            table: *const u8,
            table_length: usize,
            name: *const u8,
            name_length: usize,
            clock: u64,
            second: bool,
        ) -> Inspection;
        pub fn tack_start(table: *mut u8, table_length: usize, edition_two: bool) -> Outcome;
        pub fn tack_call_write(
            clock: u64,
            name: *const u8,
            name_length: usize,
            extension_came: bool,
            extension: *const u8,
            extension_length: usize,
            spki_sha256: *const u8,
            spki_sha256_length: usize,
            handshake_finished: bool,
            key_is_point: bool,
            signature_correct: bool,
            breaks_correct: u8,
            out: *mut u8,
            out_length: usize,
        ) -> Writing;
    }
}

/// `tack_extension_read`.
pub fn extension_read(bytes: &[u8]) -> Reading {
    // SAFETY: the pointer and the length are those of one slice.
    unsafe { library::tack_extension_read(bytes.as_ptr(), bytes.len()) }
}

/// `tack_extension_tack`.
pub fn extension_tack(bytes: &[u8]) -> Span {
    // SAFETY: the pointer and the length are those of one slice.
    unsafe { library::tack_extension_tack(bytes.as_ptr(), bytes.len()) }
}

/// `tack_extension_breaks`.
pub fn extension_breaks(bytes: &[u8]) -> Span {
    // SAFETY: the pointer and the length are those of one slice.
    unsafe { library::tack_extension_breaks(bytes.as_ptr(), bytes.len()) }
}

/// `tack_extension_write`.
pub fn extension_write(tack: &[u8], breaks: &[u8], activation: u8, out: &mut [u8]) -> Writing {
    // SAFETY: each pointer goes with the length of its slice, and `out` overlaps no other.
    unsafe {
        library::tack_extension_write(
            tack.as_ptr(),
            tack.len(),
            breaks.as_ptr(),
            breaks.len(),
            activation,
            out.as_mut_ptr(),
            out.len(),
        )
    }
}

/// `tack2_extension_read`, whose activation holds the flags.
pub fn extension_two_read(bytes: &[u8]) -> Reading {
    // SAFETY: the pointer and the length are those of one slice.
    unsafe { library::tack2_extension_read(bytes.as_ptr(), bytes.len()) }
}

/// `tack2_extension_tack`: the first tack, or the second.
pub fn extension_two_tack(bytes: &[u8], second: bool) -> Span {
    // SAFETY: the pointer and the length are those of one slice.
    unsafe { library::tack2_extension_tack(bytes.as_ptr(), bytes.len(), second) }
}

/// `tack2_extension_write`.
pub fn extension_two_write(tacks: &[u8], flags: u8, out: &mut [u8]) -> Writing {
    // SAFETY: each pointer goes with the length of its slice, and `out` overlaps no other.
    unsafe {
        library::tack2_extension_write(
            tacks.as_ptr(),
            tacks.len(),
            flags,
            out.as_mut_ptr(),
            out.len(),
        )
    }
}

/// `tack_signed_bytes`.
pub fn signed_bytes(tack: &[u8], out: &mut [u8]) -> Writing {
    // SAFETY: each pointer goes with the length of its slice, and `out` overlaps no other.
    unsafe { library::tack_signed_bytes(tack.as_ptr(), tack.len(), out.as_mut_ptr(), out.len()) }
}

/// `tack_name_well_formed`, which takes A-Z as a-z.
pub fn name_well_formed(name: &[u8]) -> bool {
    // SAFETY: the pointer and the length are those of one slice.
    unsafe { library::tack_name_well_formed(name.as_ptr(), name.len()) }
}

/// `tack_judge`.
pub fn judge(table: &mut [u8], connection: &Connection) -> Judgement {
    // SAFETY: each pointer goes with the length of its slice, and `table` overlaps no other.
    unsafe {
        library::tack_judge(
            table.as_mut_ptr(),
            table.len(),
            connection.clock,
            connection.name.as_ptr(),
            connection.name.len(),
            connection.extension_came,
            connection.extension.as_ptr(),
            connection.extension.len(),
            connection.spki_sha256.as_ptr(),
            connection.spki_sha256.len(),
            connection.handshake_finished,
            connection.key_is_point,
            connection.signature_correct,
            connection.breaks_correct,
            connection.learn_disabled,
        )
    }
}

/// `tack2_judge`.
pub fn judge_two(table: &mut [u8], connection: &ConnectionTwo) -> Judgement {
    // SAFETY: each pointer goes with the length of its slice, and `table` overlaps no other.
    unsafe {
        library::tack2_judge(
            table.as_mut_ptr(),
            table.len(),
            connection.clock,
            connection.name.as_ptr(),
            connection.name.len(),
            connection.extension_came,
            connection.extension.as_ptr(),
            connection.extension.len(),
            connection.spki_sha256.as_ptr(),
            connection.spki_sha256.len(),
            connection.handshake_finished,
            connection.keys_are_points,
            connection.signatures_correct,
        )
    }
}

/// `tack_delete`, which takes A-Z as a-z.
pub fn delete(table: &mut [u8], name: &[u8]) -> Outcome {
    // SAFETY: each pointer goes with the length of its slice, and `table` does not overlap `name`.
    unsafe { library::tack_delete(table.as_mut_ptr(), table.len(), name.as_ptr(), name.len()) }
}

/// `tack_inspect`, which takes A-Z as a-z: the first record of the name, or the second.
pub fn inspect(table: &[u8], name: &[u8], clock: u64, second: bool) -> Inspection {
    // SAFETY: each pointer goes with the length of its slice.
    unsafe {
        library::tack_inspect(
            table.as_ptr(),
            table.len(),
            name.as_ptr(),
            name.len(),
            clock,
            second,
        )
    }
}

/// `tack_start`.
pub fn start(table: &mut [u8], edition_two: bool) -> Outcome {
    // SAFETY: the pointer and the length are those of one slice.
    unsafe { library::tack_start(table.as_mut_ptr(), table.len(), edition_two) }
}

/// `tack_call_write`.
pub fn call_write(connection: &Connection, out: &mut [u8]) -> Writing {
    // SAFETY: each pointer goes with the length of its slice, and `out` overlaps no other.
    unsafe {
        library::tack_call_write(
            connection.clock,
            connection.name.as_ptr(),
            connection.name.len(),
            connection.extension_came,
            connection.extension.as_ptr(),
            connection.extension.len(),
            connection.spki_sha256.as_ptr(),
            connection.spki_sha256.len(),
            connection.handshake_finished,
            connection.key_is_point,
            connection.signature_correct,
            connection.breaks_correct,
            out.as_mut_ptr(),
            out.len(),
        )
    }
}
