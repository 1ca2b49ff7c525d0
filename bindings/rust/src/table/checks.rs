//! What the gateway and its verifier found out about a connection, and whether a disabled server gets a pin.

/// The caller's answers about a connection of edition one. Each but the last is a yes that the caller gives after it has looked
/// itself: the store verifies no signature, and takes a wrong yes for a right one.
///
/// The default is no to everything, by which every connection is refused:
///
/// ```
/// use tack::table::{Checks, Connection, PinTable, Refusal};
///
/// let mut pins = PinTable::new();
/// let unverified = Connection::new(1000, b"desk.example", &[0x77; 32], Checks::default());
/// assert_eq!(pins.judge(&unverified).unwrap_err().refusal(), Refusal::HandshakeNotFinished);
///
/// // Without an extension nothing else is asked.
/// let finished = unverified.with_checks(Checks::default().with_handshake_finished(true));
/// assert!(pins.judge(&finished).is_ok());
/// ```
///
/// Answers about a tack or a break signature that did not come are ignored.
///
/// The last, [`learn_disabled`](Checks::learn_disabled), is no answer: by its yes the caller asks for a pin of a disabled
/// server, which gets none by the default:
///
/// ```
/// # use tack::extension;
/// # use tack::table::{Checks, Connection, PinTable, Refused, Verdict};
/// // A tack of generation 3 that does not expire, activation disabled.
/// let (key, hash, signature) = ([0x11; 64], [0x77; 32], [0x55; 64]);
/// let tack = [&key[..], &[3, 3], &[0xff; 4], &hash, &signature].concat();
/// let mut disabled = [0; 170];
/// extension::write(&tack, &[], false, &mut disabled).expect("its parts have the right lengths");
///
/// let mut pins = PinTable::new();
/// let gateway = Connection::new(1000, b"desk.example", &hash, Checks::all_passed()).with_extension(&disabled);
/// assert_eq!(pins.judge(&gateway)?.verdict, Verdict::Unpinned);
/// assert_eq!(pins.inspect(b"desk.example", 1000)?, None);
///
/// // A scanner says yes; the pin stands without an end until the server enables it.
/// let scanner = gateway.with_checks(Checks::all_passed().with_learn_disabled(true));
/// assert_eq!(pins.judge(&scanner)?.verdict, Verdict::Unpinned);
/// let record = pins.inspect(b"desk.example", 1000)?.expect("it is recorded");
/// assert_eq!((record.initial, record.end), (1000, None));
/// # Ok::<(), Refused>(())
/// ```
#[derive(Debug, Clone, Copy, PartialEq, Eq, Hash, Default)]
#[non_exhaustive]
pub struct Checks {
    /// The handshake finished.
    pub handshake_finished: bool,
    /// The tack key is a P-256 point.
    pub key_is_point: bool,
    /// The tack signature is correct for the tack key.
    pub signature_correct: bool,
    /// Bit i, the lowest being 0, says that break signature i is correct.
    pub breaks_correct: u8,
    /// Make a pin although the server is disabled: a tack with activation disabled gets a record too, which may take the place
    /// of an inactive one with another key. A gateway leaves it at no. A scanner that reads tacks before they are enabled says
    /// yes: a pin's period counts from its first sight. It changes nothing where the server is enabled, and no refusal.
    pub learn_disabled: bool,
}

impl Checks {
    /// Yes to these four: the handshake finished, the tack key is a point, its signature and every break signature are correct.
    /// No to the fifth: a disabled server gets no pin.
    pub fn all_passed() -> Checks {
        Checks {
            handshake_finished: true,
            key_is_point: true,
            signature_correct: true,
            breaks_correct: 0xff,
            learn_disabled: false,
        }
    }

    /// The same with this answer about the handshake.
    pub fn with_handshake_finished(self, handshake_finished: bool) -> Checks {
        Checks {
            handshake_finished,
            ..self
        }
    }

    /// The same with this answer about the tack key.
    pub fn with_key_is_point(self, key_is_point: bool) -> Checks {
        Checks {
            key_is_point,
            ..self
        }
    }

    /// The same with this answer about the tack signature.
    pub fn with_signature_correct(self, signature_correct: bool) -> Checks {
        Checks {
            signature_correct,
            ..self
        }
    }

    /// The same with these answers about the break signatures, bit i for break signature i.
    pub fn with_breaks_correct(self, breaks_correct: u8) -> Checks {
        Checks {
            breaks_correct,
            ..self
        }
    }

    /// The same with this choice about a disabled server: [yes in a scanner](Checks::learn_disabled).
    pub fn with_learn_disabled(self, learn_disabled: bool) -> Checks {
        Checks {
            learn_disabled,
            ..self
        }
    }
}

/// The caller's answers about a connection of edition two, by the same rule as [`Checks`]: the default is no to everything.
///
/// Answers about a tack that did not come are ignored.
#[derive(Debug, Clone, Copy, PartialEq, Eq, Hash, Default)]
#[non_exhaustive]
pub struct ChecksTwo {
    /// The handshake finished.
    pub handshake_finished: bool,
    /// The key of the first tack, and that of the second, is a P-256 point.
    pub keys_are_points: [bool; 2],
    /// The signature of the first tack, and that of the second, is correct for its key.
    pub signatures_correct: [bool; 2],
}

impl ChecksTwo {
    /// Yes to these five: the handshake finished, the keys of both tacks are points, the signatures of both are correct.
    pub fn all_passed() -> ChecksTwo {
        ChecksTwo {
            handshake_finished: true,
            keys_are_points: [true, true],
            signatures_correct: [true, true],
        }
    }

    /// The same with this answer about the handshake.
    pub fn with_handshake_finished(self, handshake_finished: bool) -> ChecksTwo {
        ChecksTwo {
            handshake_finished,
            ..self
        }
    }

    /// The same with these answers about the keys of the first tack and of the second.
    pub fn with_keys_are_points(self, keys_are_points: [bool; 2]) -> ChecksTwo {
        ChecksTwo {
            keys_are_points,
            ..self
        }
    }

    /// The same with these answers about the signatures of the first tack and of the second.
    pub fn with_signatures_correct(self, signatures_correct: [bool; 2]) -> ChecksTwo {
        ChecksTwo {
            signatures_correct,
            ..self
        }
    }
}
