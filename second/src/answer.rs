//! The number of every answer, and the TLS alert that goes with it.

pub const UNPINNED: u8 = 0;
pub const CONFIRMED: u8 = 1;
pub const CONTRADICTED: u8 = 2;
pub const DELETED: u8 = 3;
pub const NAME_NOT_RECORDED: u8 = 4;
pub const INSPECTED_WITHOUT_END: u8 = 5;
pub const INSPECTED_WITH_END: u8 = 6;
pub const STARTED: u8 = 7;
pub const READ_OR_WRITTEN: u8 = 9;
pub const AREA_LENGTH_WRONG: u8 = 10;
pub const TABLE_DAMAGED: u8 = 11;
pub const NAME_MALFORMED: u8 = 12;
pub const CLOCK_ABOVE_LIMIT: u8 = 13;
pub const CLOCK_BEFORE_LATEST: u8 = 14;
pub const HANDSHAKE_NOT_FINISHED: u8 = 15;
pub const EXTENSION_MALFORMED: u8 = 16;
pub const BREAK_SIGNATURE_INCORRECT: u8 = 17;
pub const KEY_NOT_A_POINT: u8 = 18;
pub const GENERATION_BELOW_OWN_MINIMUM: u8 = 19;
pub const TARGET_HASH_UNEQUAL: u8 = 20;
pub const TACK_SIGNATURE_INCORRECT: u8 = 21;
pub const GENERATION_BELOW_FLOOR: u8 = 22;
pub const EXPIRED: u8 = 23;
pub const TWO_TACKS_WITH_ONE_KEY: u8 = 24;
pub const WRITER_BAD_PART: u8 = 25;
pub const WRITER_NO_SPACE: u8 = 26;
pub const TABLE_OF_OTHER_EDITION: u8 = 27;

const BAD_CERTIFICATE: u8 = 42;
const CERTIFICATE_REVOKED: u8 = 44;
const CERTIFICATE_EXPIRED: u8 = 45;
const ILLEGAL_PARAMETER: u8 = 47;
const ACCESS_DENIED: u8 = 49;
const DECODE_ERROR: u8 = 50;
const DECRYPT_ERROR: u8 = 51;

/// The alert to send with an answer of edition one; 0 is no alert.
pub fn alert_of(number: u8) -> u8 {
    match number {
        CONTRADICTED => ACCESS_DENIED,
        EXTENSION_MALFORMED => DECODE_ERROR,
        BREAK_SIGNATURE_INCORRECT => DECRYPT_ERROR,
        KEY_NOT_A_POINT => DECRYPT_ERROR,
        GENERATION_BELOW_OWN_MINIMUM => DECODE_ERROR,
        TARGET_HASH_UNEQUAL => ILLEGAL_PARAMETER,
        TACK_SIGNATURE_INCORRECT => DECRYPT_ERROR,
        GENERATION_BELOW_FLOOR => CERTIFICATE_REVOKED,
        EXPIRED => CERTIFICATE_EXPIRED,
        _ => 0,
    }
}

/// "In this edition 16, 18-21 and 24 carry alert 42."
pub fn alert_of_two(number: u8) -> u8 {
    match number {
        EXTENSION_MALFORMED
        | KEY_NOT_A_POINT
        | GENERATION_BELOW_OWN_MINIMUM
        | TARGET_HASH_UNEQUAL
        | TACK_SIGNATURE_INCORRECT
        | TWO_TACKS_WITH_ONE_KEY => BAD_CERTIFICATE,
        _ => alert_of(number),
    }
}
