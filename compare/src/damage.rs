//! The kinds of damage: every rule of soundness broken alone, and edges at which a table is still sound.

use crate::area::{Area, KEY_SLOTS, LIMIT, NAME_SLOTS};
use crate::random::Random;
use crate::sound::Fill;
use crate::spoil;
use second::Damage;
use tack::table::Edition;

/// What a kind of damage is done to.
#[derive(Clone, Copy, PartialEq, Eq)]
pub enum Spot {
    Header,
    UsedKey,
    FreeKey,
    UsedName,
    FreeName,
}

/// Where among its like the damaged slot stands.
#[derive(Clone, Copy)]
pub enum Place {
    First,
    Middle,
    Last,
}

pub const PLACES: [Place; 3] = [Place::First, Place::Middle, Place::Last];

impl Place {
    fn among(self, count: usize, random: &mut Random) -> usize {
        match self {
            Place::First => 0,
            Place::Middle => 1 + random.below(count - 2),
            Place::Last => count - 1,
        }
    }
}

/// The editions whose tables a kind of damage is done to.
#[derive(Clone, Copy, PartialEq, Eq)]
enum Of {
    Both,
    One,
    Two,
}

/// A kind of damage, with the second program's names for the rule that it breaks, and nothing else; none for an edge.
pub struct Kind {
    pub name: &'static str,
    of: Of,
    pub spot: Spot,
    pub broken: &'static [Damage],
    spoil: fn(&mut Area, usize, &mut Random),
}

impl Kind {
    fn is_of(&self, edition: Edition) -> bool {
        match self.of {
            Of::Both => true,
            Of::One => edition == Edition::One,
            Of::Two => edition == Edition::Two,
        }
    }

    /// The slot that the damage is done to; of the header, one of its last three bytes.
    pub fn slot(&self, place: Place, random: &mut Random) -> usize {
        let count = match self.spot {
            Spot::Header => 3,
            Spot::UsedKey | Spot::FreeKey => KEY_SLOTS,
            Spot::UsedName | Spot::FreeName => NAME_SLOTS,
        };
        place.among(count, random)
    }

    /// A table that the damage can be done to: two keys at least, a free slot where one is wanted, and a latest clock that
    /// has one before it and one after it. In edition two three keys, two names with two records and two with one.
    pub fn fill(&self, edition: Edition, slot: usize, random: &mut Random) -> Fill {
        let wants_free_key =
            self.spot == Spot::FreeKey || self.broken == [Damage::NameOnFreeKeySlot];
        let most_keys = KEY_SLOTS - usize::from(wants_free_key);
        let most_names = NAME_SLOTS - usize::from(self.spot == Spot::FreeName);
        let (least_keys, least_names) = match edition {
            Edition::One => (2, 2),
            Edition::Two => (3, 6),
        };
        let keys = least_keys + random.below(most_keys - least_keys + 1);
        let least_names = keys.max(least_names);
        let names = least_names + random.below(most_names - least_names + 1);
        Fill {
            edition,
            names,
            keys,
            pairs: match edition {
                Edition::One => 0,
                Edition::Two => 2 + random.below(names / 2 - 2),
            },
            latest: 1 + random.up_to(LIMIT - 2),
            key_slot: match self.spot {
                Spot::UsedKey => Some((slot, true)),
                Spot::FreeKey => Some((slot, false)),
                _ => None,
            },
            name_slot: match self.spot {
                Spot::UsedName => Some((slot, true)),
                Spot::FreeName => Some((slot, false)),
                _ => None,
            },
        }
    }

    pub fn apply(&self, area: &mut Area, slot: usize, random: &mut Random) {
        (self.spoil)(area, slot, random)
    }
}

/// The kinds that are done to tables of an edition.
pub fn kinds(edition: Edition) -> Vec<&'static Kind> {
    KINDS.iter().filter(|kind| kind.is_of(edition)).collect()
}

macro_rules! kinds {
    ($($name:literal, $of:ident, $spot:ident, [$($broken:ident),*], $spoil:ident;)*) => {
        &[$(Kind {
            name: $name,
            of: Of::$of,
            spot: Spot::$spot,
            broken: &[$(Damage::$broken),*],
            spoil: spoil::$spoil,
        }),*]
    };
}

/// In the order of the bytes.
#[rustfmt::skip]
const KINDS: &[Kind] = kinds! {
    "latest at the limit", Both, Header, [], latest_at_limit;
    "latest above the limit", Both, Header, [LatestAboveLimit], latest_above_limit;
    "edition one taken for two", One, Header, [], edition_two;
    "edition two taken for one", Two, Header, [NameTwice], edition_one;
    "edition neither 0 nor 1", Both, Header, [EditionNeitherZeroNorOne], edition_unknown;
    "bytes 5 to 7 not zero", Both, Header, [HeaderNotZero], header;

    "any floor", Both, UsedKey, [], floor;
    "keys that differ in one byte", Both, UsedKey, [], key_alike;
    "used byte of a key", Both, UsedKey, [KeyUsedNeitherZeroNorOne], key_used;
    "padding of a key slot", Both, UsedKey, [KeyFillNotZero], key_padding;
    "two equal keys", Both, UsedKey, [KeyTwice], key_twice;
    "used byte of a free key slot", Both, FreeKey, [KeyUsedNeitherZeroNorOne], key_used;
    "stray byte in a free key slot", Both, FreeKey, [FreeKeySlotNotZero], free_key_slot;
    "key without a name", Both, FreeKey, [KeyWithoutName], key_without_name;

    "initial at latest", Both, UsedName, [], initial_at_latest;
    "end at initial", Both, UsedName, [], end_at_initial;
    "end 43,200 after latest", Both, UsedName, [], end_at_last;
    "names that differ in one byte", Both, UsedName, [], name_alike;
    "two records of a name", Two, UsedName, [], second_record;
    "used byte of a name", Both, UsedName, [NameUsedNeitherZeroNorOne], name_used;
    "key slot number from 64 on", Both, UsedName, [NameOnFreeKeySlot], key_slot_number;
    "key slot that is free", Both, UsedName, [NameOnFreeKeySlot], key_slot_free;
    "name length 0", Both, UsedName, [NameMalformed], length_0;
    "name length 254", Both, UsedName, [NameMalformed], length_254;
    "name length 255", Both, UsedName, [NameMalformed], length_255;
    "wrong name length", Both, UsedName, [NameMalformed, NamePaddingNotZero], length_wrong;
    "end present neither 0 nor 1", Both, UsedName, [EndPresentNeitherZeroNorOne], end_present;
    "end where none is present", Both, UsedName, [AbsentEndNotZero], end_absent;
    "end below initial", Both, UsedName, [EndBeforeInitial], end_below_initial;
    "end above latest + 43,200", Both, UsedName, [EndTooLate], end_too_late;
    "initial above latest", Both, UsedName, [InitialAfterLatest], initial_above_latest;
    "padding before a name", Both, UsedName, [NameFillNotZero], before_name;
    "stray byte behind a name", Both, UsedName, [NamePaddingNotZero], behind_name;
    "last three bytes of a name slot", Both, UsedName, [NameSlotEndNotZero], name_slot_end;
    "two equal names", One, UsedName, [NameTwice], name_twice;
    "three records of a name", Two, UsedName, [NameThrice], third_record;
    "one key twice for a name", Two, UsedName, [NameTwiceOnOneKey], one_key_twice;
    "malformed name", Both, UsedName, [NameMalformed], name_malformed;
    "capitals in a name", Both, UsedName, [NameMalformed], name_in_capitals;
    "two spellings of one name", Both, UsedName, [NameMalformed], name_in_two_spellings;
    "used byte of a free name slot", Both, FreeName, [NameUsedNeitherZeroNorOne], name_used;
    "stray byte in a free name slot", Both, FreeName, [FreeNameSlotNotZero], free_name_slot;
};
