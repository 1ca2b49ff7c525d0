//! Why a call was refused.

use std::fmt;

/// Why a call was refused. A refusal leaves the table as it was, but for one floor at [`Refusal::Expired`].
///
/// Where several reasons apply in edition one, the one with the lowest number is given, but 27 next to 11. In edition two the
/// order is 10, 11, 27, 12 to 16, 24; then 18, 19, 23, 20, 21 of the first tack, and the same of the second; then 22 of either.
/// The generations, hashes and signatures are those of a tack, so without one 18 to 24 cannot come.
#[derive(Debug, Clone, Copy, PartialEq, Eq, Hash)]
#[non_exhaustive]
pub enum Refusal {
    /// 10: the area is not 39,432 bytes long.
    AreaLength = 10,
    /// 11: the bytes hold no sound table.
    Damaged = 11,
    /// 12: the name is no host name that the store takes.
    NameMalformed = 12,
    /// 13: the clock is above 4,294,924,095 minutes.
    ClockAboveLimit = 13,
    /// 14: the clock is before that of the latest connection judged.
    ClockBeforeLatest = 14,
    /// 15: the handshake is not finished.
    HandshakeNotFinished = 15,
    /// 16: the extension is malformed.
    ExtensionMalformed = 16,
    /// 17: a break signature is incorrect. In edition two there is none.
    BreakSignatureIncorrect = 17,
    /// 18: the tack key is no P-256 point.
    KeyNotAPoint = 18,
    /// 19: the generation is below the tack's own min_generation.
    GenerationBelowOwnMinimum = 19,
    /// 20: the target hash is not that of the server's key.
    TargetHashUnequal = 20,
    /// 21: the tack signature is incorrect.
    TackSignatureIncorrect = 21,
    /// 22: the generation is below the stored floor of the key: it is revoked.
    GenerationRevoked = 22,
    /// 23: the tack has expired. In edition two it does so at its expiration, in edition one a minute after it.
    ///
    /// An expired tack still revokes. In edition one this refusal raises the floor of the tack's key to the tack's
    /// min_generation, if the key has a record with a lower one: tacks of lower generations are then
    /// [revoked](Refusal::GenerationRevoked). So a table that is kept in a file is kept anew after it. Nothing else in the table
    /// changes. In edition two it changes nothing at all.
    Expired = 23,
    /// 24: the two tacks of edition two have one key.
    OneKeyTwice = 24,
    /// 27: the table is of the other edition.
    OtherEdition = 27,
}

use Refusal::*;

const ALL: [Refusal; 16] = [
    AreaLength,
    Damaged,
    NameMalformed,
    ClockAboveLimit,
    ClockBeforeLatest,
    HandshakeNotFinished,
    ExtensionMalformed,
    BreakSignatureIncorrect,
    KeyNotAPoint,
    GenerationBelowOwnMinimum,
    TargetHashUnequal,
    TackSignatureIncorrect,
    GenerationRevoked,
    Expired,
    OneKeyTwice,
    OtherEdition,
];

impl Refusal {
    /// The refusal's number.
    pub fn number(self) -> u8 {
        self as u8
    }
}

/// ```
/// use tack::table::Refusal;
///
/// assert_eq!(Refusal::try_from(22), Ok(Refusal::GenerationRevoked));
/// assert!(Refusal::try_from(2).is_err());
/// for number in (10..=24).chain([27]) {
///     assert!(Refusal::try_from(number).is_ok_and(|refusal| refusal.number() == number));
/// }
/// ```
impl TryFrom<u8> for Refusal {
    type Error = NoRefusal;

    fn try_from(number: u8) -> Result<Refusal, NoRefusal> {
        let found = ALL.into_iter().find(|refusal| refusal.number() == number);
        found.ok_or(NoRefusal { number })
    }
}

impl fmt::Display for Refusal {
    fn fmt(&self, f: &mut fmt::Formatter<'_>) -> fmt::Result {
        f.write_str(match self {
            AreaLength => "the area is not 39,432 bytes long",
            Damaged => "the pin table is damaged",
            NameMalformed => "the host name is malformed",
            ClockAboveLimit => "the clock is above the limit",
            ClockBeforeLatest => "the clock is before that of the latest connection",
            HandshakeNotFinished => "the handshake is not finished",
            ExtensionMalformed => "the TACK extension is malformed",
            BreakSignatureIncorrect => "a break signature is incorrect",
            KeyNotAPoint => "the tack key is no P-256 point",
            GenerationBelowOwnMinimum => "the generation is below the tack's own min_generation",
            TargetHashUnequal => "the target hash is not that of the server's key",
            TackSignatureIncorrect => "the tack signature is incorrect",
            GenerationRevoked => "the generation is revoked",
            Expired => "the tack has expired",
            OneKeyTwice => "the two tacks have one key",
            OtherEdition => "the pin table is of the other edition",
        })
    }
}

/// No refusal has this number.
#[derive(Debug, Clone, Copy, PartialEq, Eq, Hash)]
#[non_exhaustive]
pub struct NoRefusal {
    /// The number.
    pub number: u8,
}

impl fmt::Display for NoRefusal {
    fn fmt(&self, f: &mut fmt::Formatter<'_>) -> fmt::Result {
        write!(f, "{} is the number of no refusal", self.number)
    }
}

impl std::error::Error for NoRefusal {}

/// A call was refused: the reason, and the alert that the library answered with. The table is as it was, but for one floor at
/// [`Refusal::Expired`].
///
/// ```
/// use tack::table::{Checks, Connection, PinTable, Refusal};
///
/// let malformed = Connection::new(1000, b"desk.example", &[0x77; 32], Checks::all_passed()).with_extension(&[0]);
/// let refused = PinTable::new().judge(&malformed).unwrap_err();
/// assert_eq!(refused.refusal(), Refusal::ExtensionMalformed);
/// assert_eq!((refused.number(), refused.alert()), (16, 50));
/// assert_eq!(refused.to_string(), "the TACK extension is malformed");
/// ```
#[derive(Debug, Clone, Copy, PartialEq, Eq, Hash)]
pub struct Refused {
    refusal: Refusal,
    alert: u8,
}

impl Refused {
    /// The library's answer, whose number is none of the call's own.
    pub(crate) fn new(number: u8, alert: u8) -> Refused {
        match Refusal::try_from(number) {
            Ok(refusal) => Refused { refusal, alert },
            Err(_) => unreachable!("the library answered {number}"),
        }
    }

    /// Why.
    pub fn refusal(self) -> Refusal {
        self.refusal
    }

    /// The refusal's number.
    pub fn number(self) -> u8 {
        self.refusal.number()
    }

    /// The TLS alert that goes with it in the edition of the call, or 0 for none.
    pub fn alert(self) -> u8 {
        self.alert
    }
}

impl fmt::Display for Refused {
    fn fmt(&self, f: &mut fmt::Formatter<'_>) -> fmt::Result {
        self.refusal.fmt(f)
    }
}

impl std::error::Error for Refused {}

impl From<Refused> for Refusal {
    fn from(refused: Refused) -> Refusal {
        refused.refusal
    }
}
