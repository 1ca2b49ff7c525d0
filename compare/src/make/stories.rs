//! The bundled night: what the tenants of one gateway did, from the clinic's first evening to the last minute of all clocks.
//!
//! It is told in scenes, one function each, in the order of their clocks. Each call stands beside the number that the papers
//! answer; clocks are minutes, and a key of these stories is one byte, 64 times.

use crate::call::Connection;
use crate::wire::{self, Tack};

const UNPINNED: u8 = 0;
const CONFIRMED: u8 = 1;
const CONTRADICTED: u8 = 2;
const NAME_MALFORMED: u8 = 12;
const CLOCK_ABOVE_LIMIT: u8 = 13;
const CLOCK_BEFORE_LATEST: u8 = 14;
const NOT_FINISHED: u8 = 15;
const EXTENSION_MALFORMED: u8 = 16;
const BREAK_INCORRECT: u8 = 17;
const NO_POINT: u8 = 18;
const BELOW_OWN_MINIMUM: u8 = 19;
const HASH_UNEQUAL: u8 = 20;
const SIGNATURE_INCORRECT: u8 = 21;
const REVOKED: u8 = 22;
const EXPIRED: u8 = 23;

/// A call, and what the papers answer to it.
pub struct Told {
    pub call: Connection,
    pub number: u8,
    pub no_room: bool,
}

/// The calls of the night.
pub fn night() -> impl Iterator<Item = Connection> {
    told().into_iter().map(|told| told.call)
}

/// The same with their answers.
pub fn told() -> Vec<Told> {
    let mut story = Story { calls: vec![] };
    for scene in SCENES {
        scene(&mut story);
    }
    story.calls
}

const SCENES: [fn(&mut Story); 25] = [
    first_evening,
    clinic_is_confirmed,
    clock_goes_back,
    impostor_at_the_clinic,
    clinic_comes_back,
    school_opens,
    school_revokes_a_generation,
    school_breaks_its_key,
    pharmacy_has_faults,
    expired_tack,
    malformed_names,
    desk_in_any_spelling,
    clocks_above_the_limit,
    everything_wrong_and_mended,
    club_is_disabled_first,
    club_changes_its_key,
    break_signatures_at_the_chess_club,
    clinic_grows,
    tenants_use_up_the_keys,
    sites_use_up_the_names,
    calls_on_the_full_table,
    tenants_are_confirmed_and_end,
    sites_break_their_key,
    clinic_is_full_grown,
    last_minute,
];

struct Story {
    calls: Vec<Told>,
}

impl Story {
    fn tell(&mut self, call: Connection, number: u8) {
        self.put(call, number, false);
    }

    /// A pin was due, and there was no room for it.
    fn tell_no_room(&mut self, call: Connection, number: u8) {
        self.put(call, number, true);
    }

    fn put(&mut self, call: Connection, number: u8, no_room: bool) {
        self.calls.push(Told {
            call,
            number,
            no_room,
        });
    }
}

/// A finished connection without an extension.
fn at(clock: u32, name: &str) -> Connection {
    Connection::at(clock, name.as_bytes())
}

/// A tack that does not expire.
fn tack(key: u8, min_generation: u8, generation: u8) -> Tack {
    Tack {
        key: [key; 64],
        min_generation,
        generation,
        expiration: u32::MAX,
    }
}

/// An extension with the tack, activation enabled.
fn enabled(tack: Tack) -> Vec<u8> {
    wire::extension(Some(&tack), &[], 1)
}

/// An extension with the tack, activation disabled.
fn disabled(tack: Tack) -> Vec<u8> {
    wire::extension(Some(&tack), &[], 0)
}

/// An extension with break signatures of these keys, and no tack.
fn breaking(keys: &[u8]) -> Vec<u8> {
    let keys: Vec<[u8; 64]> = keys.iter().map(|&key| [key; 64]).collect();
    wire::extension(None, &keys, 1)
}

const CLINIC: &str = "desk.clinic.example";
const PHARMACY: &str = "pharmacy.clinic.example";
const CLINIC_KEY: u8 = 0x11;

const SCHOOL: &str = "desk.school.example";
const LIBRARY: &str = "library.school.example";
const SCHOOL_KEY: u8 = 0x33;
const NEW_SCHOOL_KEY: u8 = 0x34;

const CLUB: &str = "club.example";
const CLUB_KEY: u8 = 0x55;
const NEW_CLUB_KEY: u8 = 0x56;

/// As browsers hand it to us.
const DESK: &str = "Desk.Example";
const DESK_KEY: u8 = 0x44;

const CHESS: &str = "chess.club.example";
const CHESS_KEY: u8 = 0x57;

/// It knows nothing of TACK.
const SHOP: &str = "www.shop.example";

/// Each tenant has a key of its own, this one and those after it.
const FIRST_TENANT_KEY: u8 = 0x80;
/// All sites have one key.
const SITES_KEY: u8 = FIRST_TENANT_KEY;
const NEW_SITES_KEY: u8 = 0xf0;

fn clinic() -> Vec<u8> {
    enabled(tack(CLINIC_KEY, 3, 3))
}

fn tenant(clock: u32, number: u8) -> Connection {
    let shown = enabled(tack(FIRST_TENANT_KEY + number, 0, 0));
    at(clock, &format!("tenant{number:02}.example")).with(shown)
}

fn site(clock: u32, number: u8, key: u8) -> Connection {
    let name = format!("site{number:02}.host.example");
    at(clock, &name).with(enabled(tack(key, 1, 1)))
}

/// The clinic's pin is made and stands inactive. An extension may hold nothing; it may not be empty, nor activated by a 2.
fn first_evening(story: &mut Story) {
    story.tell(at(1_000, CLINIC).with(clinic()), UNPINNED);
    story.tell(at(1_000, SHOP), UNPINNED);
    story.tell(at(1_000, SHOP).with(vec![0, 0, 0, 0]), UNPINNED);
    story.tell(at(1_000, SHOP).with(vec![0, 0, 0, 2]), EXTENSION_MALFORMED);
    story.tell(at(1_000, SHOP).with(vec![]), EXTENSION_MALFORMED);
}

/// After 600 minutes the pin is activated for 600 more, to 2,200.
fn clinic_is_confirmed(story: &mut Story) {
    story.tell(at(1_600, CLINIC).with(clinic()), CONFIRMED);
    story.tell(at(1_600, SHOP), UNPINNED);
}

/// A clock may stand, but not go back.
fn clock_goes_back(story: &mut Story) {
    story.tell(at(1_599, CLINIC).with(clinic()), CLOCK_BEFORE_LATEST);
    story.tell(at(1_599, SHOP), CLOCK_BEFORE_LATEST);
    story.tell(at(0, SHOP), CLOCK_BEFORE_LATEST);
    story.tell(at(1_600, CLINIC).with(clinic()), CONFIRMED);
}

/// While the pin is active another key contradicts it, and so does silence; at its end it is active no more.
fn impostor_at_the_clinic(story: &mut Story) {
    let impostor = enabled(tack(0x22, 0, 0));
    story.tell(at(2_000, CLINIC).with(impostor), CONTRADICTED);
    story.tell(at(2_199, CLINIC), CONTRADICTED);
    story.tell(at(2_200, CLINIC), UNPINNED);
}

/// The record still stands, 1,300 minutes old: it is activated to 3,600.
fn clinic_comes_back(story: &mut Story) {
    story.tell(at(2_300, CLINIC).with(clinic()), CONFIRMED);
    story.tell(at(2_300, SHOP), UNPINNED);
}

/// Two names under one key, active to 4,200.
fn school_opens(story: &mut Story) {
    for (clock, number) in [(3_000, UNPINNED), (3_600, CONFIRMED)] {
        for name in [SCHOOL, LIBRARY] {
            let shown = enabled(tack(SCHOOL_KEY, 3, 3));
            story.tell(at(clock, name).with(shown), number);
        }
    }
}

/// The desk raises the floor to 4, for both names. A generation that the tack itself has given up is the lower number.
fn school_revokes_a_generation(story: &mut Story) {
    let school = |min_generation, generation| enabled(tack(SCHOOL_KEY, min_generation, generation));
    story.tell(at(3_700, SCHOOL).with(school(4, 4)), CONFIRMED);
    story.tell(at(3_700, LIBRARY).with(school(3, 3)), REVOKED);
    story.tell(at(3_700, LIBRARY).with(school(4, 3)), BELOW_OWN_MINIMUM);
    story.tell(at(3_700, LIBRARY).with(school(3, 4)), CONFIRMED);
    story.tell(at(3_700, LIBRARY).with(school(3, 3)), REVOKED);
}

/// The break signature, shown at the desk, takes the pins of both names; a new key starts from nothing.
fn school_breaks_its_key(story: &mut Story) {
    story.tell(at(3_800, SCHOOL).with(breaking(&[SCHOOL_KEY])), UNPINNED);
    story.tell(at(3_800, LIBRARY), UNPINNED);
    for (clock, number) in [(3_900, UNPINNED), (4_500, CONFIRMED)] {
        for name in [SCHOOL, LIBRARY] {
            let shown = enabled(tack(NEW_SCHOOL_KEY, 0, 0));
            story.tell(at(clock, name).with(shown), number);
        }
    }
}

/// The pharmacy, under the clinic's key: what can be wrong with a connection besides name, clock, generation and expiration.
fn pharmacy_has_faults(story: &mut Story) {
    let pharmacy = || at(5_000, PHARMACY).with(clinic());
    story.tell(pharmacy(), UNPINNED);
    let unfinished = Connection {
        handshake_finished: false,
        ..pharmacy()
    };
    story.tell(unfinished, NOT_FINISHED);
    for extension in malformed_extensions() {
        let malformed = at(5_000, PHARMACY).with(extension);
        story.tell(malformed, EXTENSION_MALFORMED);
    }
    for wrong_bits in [0b00, 0b10, 0b01] {
        let broken = Connection {
            breaks_correct: wrong_bits,
            ..at(5_000, PHARMACY).with(breaking(&[CLINIC_KEY, CHESS_KEY]))
        };
        story.tell(broken, BREAK_INCORRECT);
    }
    let no_point = Connection {
        key_is_point: false,
        ..pharmacy()
    };
    story.tell(no_point, NO_POINT);
    let forged = Connection {
        signature_correct: false,
        ..pharmacy()
    };
    story.tell(forged, SIGNATURE_INCORRECT);
    // A refused tack does not raise the floor: generation 3 still passes.
    let of_another_server = Connection {
        hash: vec![0x78; 32],
        ..at(5_000, PHARMACY).with(enabled(tack(CLINIC_KEY, 5, 5)))
    };
    story.tell(of_another_server, HASH_UNEQUAL);
    story.tell(at(5_100, PHARMACY).with(clinic()), CONFIRMED);
}

fn malformed_extensions() -> Vec<Vec<u8>> {
    let mut cut = clinic();
    cut.pop();
    let mut lengthened = clinic();
    lengthened.push(0);
    // The later draft has a length of two bytes before the tack.
    let later_draft = [&[0], &clinic()[..]].concat();
    let nine_breaks = breaking(&[1, 2, 3, 4, 5, 6, 7, 8, 9]);
    let mut uneven_breaks = breaking(&[1]);
    uneven_breaks[2] -= 1;
    let longest = vec![0; crate::record::LONGEST_EXTENSION];
    vec![
        cut,
        lengthened,
        later_draft,
        nine_breaks,
        uneven_breaks,
        longest,
    ]
}

/// A tack is good in the minute of its expiration, and no longer.
fn expired_tack(story: &mut Story) {
    let expiring = |expiration| {
        enabled(Tack {
            expiration,
            ..tack(CLINIC_KEY, 3, 3)
        })
    };
    story.tell(at(5_100, PHARMACY).with(expiring(5_100)), CONFIRMED);
    story.tell(at(5_101, PHARMACY).with(expiring(5_100)), EXPIRED);
    story.tell(at(5_101, PHARMACY).with(expiring(0)), EXPIRED);
    story.tell(at(5_101, PHARMACY).with(expiring(5_102)), CONFIRMED);
}

/// Labels of 1 to 63 bytes, names of 1 to 253, letters, digits and hyphens within.
fn malformed_names(story: &mut Story) {
    let label = |length: usize| "a".repeat(length);
    let long = |length: usize| {
        let labels = vec![label(49); 5].join(".");
        format!("{labels}.{}", label(length - labels.len() - 1))
    };
    let malformed = [
        "",
        ".",
        "desk.clinic.example.",
        "Desk.Clinic.Example.",
        ".clinic.example",
        "desk..example",
        "-desk.example",
        "desk-.example",
        "desk_1.example",
        "@desk.example",
        "desk[1].example",
        &format!("{}.example", label(64)),
        &format!("{}.example", label(64)).to_uppercase(),
        &long(254),
        &long(254).to_uppercase(),
        &long(300),
    ];
    for name in malformed {
        story.tell(at(5_200, name).with(clinic()), NAME_MALFORMED);
    }
    for name in [&format!("{}.example", label(63)), &long(253), "1-2.3", "x"] {
        story.tell(at(5_200, name), UNPINNED);
        story.tell(at(5_200, &name.to_uppercase()), UNPINNED);
    }
}

/// In letters of either case it is one name (document 02, Q-2): a pin that is made in one spelling is confirmed in another, to
/// 5,230, and contradicted and broken in others.
fn desk_in_any_spelling(story: &mut Story) {
    let desk = || enabled(tack(DESK_KEY, 0, 0));
    let impostor = enabled(tack(0x22, 0, 0));
    story.tell(at(5_210, DESK).with(desk()), UNPINNED);
    story.tell(at(5_220, "desk.example").with(desk()), CONFIRMED);
    story.tell(at(5_229, "DESK.EXAMPLE"), CONTRADICTED);
    story.tell(at(5_229, "dESK.example").with(impostor), CONTRADICTED);
    story.tell(at(5_230, "desk.EXAMPLE"), UNPINNED);
    story.tell(at(5_240, DESK).with(desk()), CONFIRMED);
    let broken = breaking(&[DESK_KEY]);
    story.tell(at(5_250, "DESK.EXAMPLE").with(broken), UNPINNED);
    story.tell(at(5_250, DESK), UNPINNED);
}

/// A clock above the limit is refused, and does not move the table's.
fn clocks_above_the_limit(story: &mut Story) {
    story.tell(at(4_294_924_096, SHOP), CLOCK_ABOVE_LIMIT);
    story.tell(at(u32::MAX, CLINIC).with(clinic()), CLOCK_ABOVE_LIMIT);
    story.tell(at(5_300, SHOP), UNPINNED);
}

/// A call in which everything is wrong, mended step by step: every refusal in its order.
fn everything_wrong_and_mended(story: &mut Story) {
    let extension = |min_generation, generation, expiration| {
        let tack = Tack {
            expiration,
            ..tack(CLINIC_KEY, min_generation, generation)
        };
        wire::extension(Some(&tack), &[[CHESS_KEY; 64]], 1)
    };
    let mut call = Connection {
        extension_came: true,
        hash: vec![0x78; 32],
        handshake_finished: false,
        key_is_point: false,
        signature_correct: false,
        breaks_correct: 0,
        ..at(u32::MAX, "Pharmacy.Clinic.Example.")
    };
    story.tell(call.clone(), NAME_MALFORMED);
    call.name = b"Pharmacy.Clinic.Example".to_vec();
    story.tell(call.clone(), CLOCK_ABOVE_LIMIT);
    call.clock = 5_299;
    story.tell(call.clone(), CLOCK_BEFORE_LATEST);
    call.clock = 5_300;
    story.tell(call.clone(), NOT_FINISHED);
    call.handshake_finished = true;
    story.tell(call.clone(), EXTENSION_MALFORMED);
    call.extension = extension(3, 2, 5_299);
    story.tell(call.clone(), BREAK_INCORRECT);
    call.breaks_correct = 1;
    story.tell(call.clone(), NO_POINT);
    call.key_is_point = true;
    story.tell(call.clone(), BELOW_OWN_MINIMUM);
    call.extension = extension(2, 2, 5_299);
    story.tell(call.clone(), HASH_UNEQUAL);
    call.hash = wire::HASH.to_vec();
    story.tell(call.clone(), SIGNATURE_INCORRECT);
    call.signature_correct = true;
    story.tell(call.clone(), REVOKED);
    call.extension = extension(2, 3, 5_299);
    story.tell(call.clone(), EXPIRED);
    call.extension = extension(2, 3, 5_300);
    story.tell(call, CONFIRMED);
}

/// Each call of a night gives the yes: a pin is made with activation disabled too, but only an enabled tack activates it, here to
/// 6,400.
fn club_is_disabled_first(story: &mut Story) {
    let club = || tack(CLUB_KEY, 0, 0);
    story.tell(at(6_000, CLUB).with(disabled(club())), UNPINNED);
    story.tell(at(6_100, CLUB).with(disabled(club())), UNPINNED);
    story.tell(at(6_200, CLUB).with(enabled(club())), CONFIRMED);
    story.tell(at(6_300, CLUB).with(disabled(club())), CONFIRMED);
    story.tell(at(6_399, CLUB), CONTRADICTED);
    story.tell(at(6_400, CLUB), UNPINNED);
}

/// When its pin has ended, a name may take another key; from then on it is the old key that contradicts.
fn club_changes_its_key(story: &mut Story) {
    let old = || enabled(tack(CLUB_KEY, 0, 0));
    let new = || enabled(tack(NEW_CLUB_KEY, 0, 0));
    story.tell(at(6_500, CLUB).with(new()), UNPINNED);
    story.tell(at(6_600, CLUB).with(new()), CONFIRMED);
    story.tell(at(6_650, CLUB).with(old()), CONTRADICTED);
    story.tell(at(6_650, CLUB).with(new()), CONFIRMED);
}

/// A key that is shown and broken in one call leaves no record. Anyone may show a break signature, and show it twice.
fn break_signatures_at_the_chess_club(story: &mut Story) {
    let chess = || enabled(tack(CHESS_KEY, 0, 0));
    let shown_and_broken = wire::extension(Some(&tack(CHESS_KEY, 0, 0)), &[[CHESS_KEY; 64]], 1);
    story.tell(at(6_800, CHESS).with(shown_and_broken), UNPINNED);
    story.tell(at(6_900, CHESS).with(chess()), UNPINNED);
    story.tell(at(7_000, CHESS).with(chess()), CONFIRMED);
    story.tell(at(7_050, CHESS), CONTRADICTED);
    let twice = breaking(&[CHESS_KEY, CHESS_KEY]);
    story.tell(at(7_050, SHOP).with(twice), UNPINNED);
    story.tell(at(7_050, CHESS), UNPINNED);
    let unknown = breaking(&[1, 2, 3, 4, 5, 6, 7, 8]);
    story.tell(at(7_050, CHESS).with(unknown), UNPINNED);
}

/// The clinic's pin, made at 1,000, is extended by its age: to 15,000, 27,000 and 51,000.
fn clinic_grows(story: &mut Story) {
    for clock in [8_000, 14_000, 26_000] {
        story.tell(at(clock, CLINIC).with(clinic()), CONFIRMED);
        story.tell(at(clock, SHOP), UNPINNED);
    }
}

/// The clinic, the school and the club have three keys; 61 tenants take the others. The next have no room, and are judged.
fn tenants_use_up_the_keys(story: &mut Story) {
    for number in 0..61 {
        story.tell(tenant(30_000, number), UNPINNED);
    }
    for number in 61..65 {
        story.tell_no_room(tenant(30_000, number), UNPINNED);
    }
}

/// There are 66 names: the clinic's two, the school's two, the club's and those of the tenants. 62 sites under the first
/// tenant's key take the other slots.
fn sites_use_up_the_names(story: &mut Story) {
    for number in 0..62 {
        story.tell(site(30_100, number, SITES_KEY), UNPINNED);
    }
    for number in 62..66 {
        story.tell_no_room(site(30_100, number, SITES_KEY), UNPINNED);
    }
}

/// A full table refuses nobody. A tenant's old key makes room for its new one, since no other name is on it; the first
/// tenant's does not.
fn calls_on_the_full_table(story: &mut Story) {
    let clock = 30_200;
    let other = |key| enabled(tack(key, 0, 0));
    story.tell(at(clock, CLINIC).with(clinic()), CONFIRMED);
    story.tell(at(clock, "Desk.Clinic.Example").with(clinic()), CONFIRMED);
    story.tell(at(clock, CLINIC).with(other(0x22)), CONTRADICTED);
    story.tell(at(clock, CLINIC), CONTRADICTED);
    story.tell(at(clock, SHOP), UNPINNED);
    let too_old = enabled(tack(CLINIC_KEY, 2, 2));
    story.tell(at(clock, CLINIC).with(too_old), REVOKED);
    let last = at(clock, "tenant60.example");
    story.tell(last.with(other(0x23)), UNPINNED);
    let first = at(clock, "tenant00.example");
    story.tell_no_room(first.with(other(0x24)), UNPINNED);
}

/// Active from 31,000 to 32,000.
fn tenants_are_confirmed_and_end(story: &mut Story) {
    let silent = |clock, number| Connection {
        extension_came: false,
        ..tenant(clock, number)
    };
    for number in 1..11 {
        story.tell(tenant(31_000, number), CONFIRMED);
    }
    for number in 1..5 {
        story.tell(silent(31_999, number), CONTRADICTED);
    }
    for number in 1..5 {
        story.tell(silent(32_000, number), UNPINNED);
    }
}

/// With the key go all its names, and then there is room for the sites that had none.
fn sites_break_their_key(story: &mut Story) {
    let broken = breaking(&[SITES_KEY]);
    story.tell(at(32_100, "site00.host.example").with(broken), UNPINNED);
    for (clock, number) in [(32_200, UNPINNED), (32_300, CONFIRMED)] {
        for site_number in 60..66 {
            story.tell(site(clock, site_number, NEW_SITES_KEY), number);
        }
    }
}

/// At 44,200 the pin is thirty days old and extended by as much, to 87,400; a minute later by no more, to 87,401.
fn clinic_is_full_grown(story: &mut Story) {
    for clock in [44_199, 44_200, 44_201] {
        story.tell(at(clock, CLINIC).with(clinic()), CONFIRMED);
    }
    story.tell(at(87_400, CLINIC), CONTRADICTED);
    story.tell(at(87_401, CLINIC), UNPINNED);
}

/// The last clock passes, and after it only itself; a pin still gets its thirty days.
fn last_minute(story: &mut Story) {
    let last = 4_294_924_095;
    story.tell(at(last, SHOP), UNPINNED);
    story.tell(at(last, CLINIC).with(clinic()), CONFIRMED);
    story.tell(at(last, CLINIC), CONTRADICTED);
    story.tell(at(last + 1, CLINIC), CLOCK_ABOVE_LIMIT);
    story.tell(at(last - 1, CLINIC), CLOCK_BEFORE_LATEST);
    story.tell(at(87_401, SHOP), CLOCK_BEFORE_LATEST);
}
