//! Recorded nights: reader and writer of the calls, report and tally.

use std::io::{self, ErrorKind, Read, Write};

use second::night::{judge_counted, LONGEST_CALL};
use second::{read_call, replay, report, write_call, NotRecordable, PinTable, Tally};

use crate::calls::*;
use crate::capitals::respelled_night;
use crate::journal::Random;

const K: [u8; 64] = [0x11; 64];

pub fn e4() -> Call {
    Call::at(1000, "a.b").with(showing(K))
}

pub fn e5() -> Call {
    Call::at(1600, "a.b").with(showing(K))
}

pub fn night_of(calls: &[Call]) -> Vec<u8> {
    calls.iter().flat_map(Call::recorded).collect()
}

#[track_caller]
fn reports(night: &[u8], expected: &str) {
    assert_eq!(String::from_utf8(report(night)).unwrap(), expected);
}

/// Asserts that the first call is bad, with and without calls around it.
#[track_caller]
fn is_bad(call: &[u8]) {
    assert_eq!(read_call(call), None);
    reports(call, "bad\n");
    let first = e4().recorded();
    let last = e5().recorded();
    reports(&[&first, call].concat(), "0 0 0 0\nbad\n");
    reports(&[&first, call, &last].concat(), "0 0 0 0\nbad\n");
}

#[test]
fn e4_then_e5() {
    reports(&night_of(&[e4(), e5()]), "0 0 0 0\n1 1 0 0\ntotal 2\n");
}

#[test]
fn empty_night() {
    reports(&[], "total 0\n");
    assert_eq!(replay(io::empty(), io::sink()).unwrap(), Tally::default());
}

#[test]
fn alerts_and_no_room_in_the_lines() {
    let contradicted = [e4(), e5(), Call::at(2199, "a.b")];
    let night = night_of(&contradicted);
    reports(&night, "0 0 0 0\n1 1 0 0\n2 2 49 0\ntotal 3\n");

    let mut names: Vec<Call> = (0..129)
        .map(|number| Call::at(1000, &format!("host{number}")).with(showing(K)))
        .collect();
    names.push(Call::at(4_294_924_096, "a.b"));
    names.push(Call::at(1000, ""));
    let text = String::from_utf8(report(&night_of(&names))).unwrap();
    let lines: Vec<&str> = text.lines().collect();
    assert_eq!(lines[127], "127 0 0 0");
    assert_eq!(
        lines[128..],
        ["128 0 0 1", "129 13 0 0", "130 12 0 0", "total 131"]
    );
}

#[test]
fn cut_at_every_byte() {
    let (first, second) = (e4().recorded(), e5().recorded());
    let night = [first.as_slice(), &second].concat();
    for length in 0..=night.len() {
        let expected = match length {
            0 => "total 0\n",
            _ if length < first.len() => "bad\n",
            _ if length == first.len() => "0 0 0 0\ntotal 1\n",
            _ if length < night.len() => "0 0 0 0\nbad\n",
            _ => "0 0 0 0\n1 1 0 0\ntotal 2\n",
        };
        reports(&night[..length], expected);
    }
}

/// Every order of the fields of the call.
fn orders(fields: &[Vec<u8>]) -> Vec<Vec<Vec<u8>>> {
    let mut orders = vec![Vec::new()];
    for field in fields {
        let longer = orders.iter().flat_map(|order: &Vec<Vec<u8>>| {
            (0..=order.len()).map(|place| {
                let mut order = order.clone();
                order.insert(place, field.clone());
                order
            })
        });
        orders = longer.collect();
    }
    orders
}

#[test]
fn fields_out_of_order() {
    for call in [e4(), Call::at(1000, "a.b")] {
        let fields = call.fields();
        let without_extension = Call::at(1000, "a.b").fields();
        for order in orders(&fields) {
            let night = order.concat();
            if order == fields {
                reports(&night, "0 0 0 0\ntotal 1\n");
            } else if order.starts_with(&without_extension) {
                // A whole call, and then an extension without one.
                reports(&night, "0 0 0 0\nbad\n");
            } else {
                is_bad(&night);
            }
        }
    }
}

#[test]
fn fields_missing_or_twice() {
    let fields = e4().fields();
    for place in 0..fields.len() {
        let mut missing = fields.clone();
        let field = missing.remove(place);
        let mut twice = fields.clone();
        twice.insert(place, field);
        match place {
            // The extension may be missing.
            4 => reports(&missing.concat(), "0 0 0 0\ntotal 1\n"),
            _ => is_bad(&missing.concat()),
        }
        match place {
            // The call is whole before its second end.
            5 => reports(&twice.concat(), "0 0 0 0\nbad\n"),
            _ => is_bad(&twice.concat()),
        }
    }
}

#[test]
fn wrong_tags() {
    let fields = e4().fields();
    for (place, field) in fields.iter().enumerate() {
        for tag in (0..=255).filter(|tag| *tag != field[0]) {
            let mut wrong = fields.clone();
            wrong[place][0] = tag;
            is_bad(&wrong.concat());
        }
    }
}

/// The call with one of its fields replaced.
fn with_field(place: usize, value: &[u8]) -> Vec<u8> {
    let mut fields = e4().fields();
    fields[place] = field(place as u8 + 1, value);
    fields.concat()
}

#[test]
fn wrong_lengths() {
    for (place, length) in [(0, 4), (2, 2), (3, 32), (5, 0)] {
        for wrong in (0..300).chain([4096, 0xFFFF]).filter(|at| *at != length) {
            is_bad(&with_field(place, &vec![0; wrong]));
        }
    }
    for length in [301, 302, 512, 4096, 0xFFFF] {
        is_bad(&with_field(1, &vec![b'a'; length]));
    }
    for length in [4097, 4098, 8192, 0xFFFF] {
        is_bad(&with_field(4, &vec![0; length]));
    }
}

/// A length that is not the field's own shifts all that follows.
#[test]
fn lengths_that_do_not_fit_their_fields() {
    let fields = e4().fields();
    for place in 0..fields.len() {
        let length = u16::from_be_bytes([fields[place][1], fields[place][2]]);
        for wrong in (0..=5000).chain([0xFFFF]).filter(|at| *at != length) {
            let mut fields = fields.clone();
            fields[place][1..3].copy_from_slice(&wrong.to_be_bytes());
            let bytes = fields.concat();
            assert_eq!(read_call(&bytes), None, "{place} {wrong}");
        }
    }
}

#[test]
fn every_answers_byte() {
    for answers in 0..=255_u8 {
        let bytes = with_field(2, &[answers, 0]);
        match answers {
            0 | 2 | 4 | 6 => reports(&bytes, "0 15 0 0\ntotal 1\n"),
            1 | 5 => reports(&bytes, "0 18 51 0\ntotal 1\n"),
            3 => reports(&bytes, "0 21 51 0\ntotal 1\n"),
            7 => reports(&bytes, "0 0 0 0\ntotal 1\n"),
            _ => is_bad(&bytes),
        }
    }
}

#[test]
fn every_break_bit() {
    let keys: Vec<[u8; 64]> = (0..8).map(key).collect();
    let mut call = Call::at(1000, "a.b").with(breaking(&keys));
    for bits in 0..=255 {
        call.breaks_correct = bits;
        let line = if bits == 255 { "0 0 0 0" } else { "0 17 51 0" };
        reports(&call.recorded(), &format!("{line}\ntotal 1\n"));
    }
}

#[test]
fn longest_name() {
    let call = Call::at(1000, &"a".repeat(300));
    reports(&call.recorded(), "0 12 0 0\ntotal 1\n");
    is_bad(&Call::at(1000, &"a".repeat(301)).recorded());
    reports(&Call::at(1000, "").recorded(), "0 12 0 0\ntotal 1\n");
}

#[test]
fn longest_extension() {
    let call = Call::at(1000, "a.b");
    let longest = call.clone().with(vec![0; 4096]);
    reports(&longest.recorded(), "0 16 50 0\ntotal 1\n");
    is_bad(&call.clone().with(vec![0; 4097]).recorded());
    let empty = call.clone().with(Vec::new());
    reports(&empty.recorded(), "0 16 50 0\ntotal 1\n");
    reports(&call.recorded(), "0 0 0 0\ntotal 1\n");

    let longest = Call::at(1000, &"a".repeat(300)).with(vec![0; 4096]);
    assert_eq!(longest.recorded().len(), LONGEST_CALL);
    reports(&longest.recorded(), "0 12 0 0\ntotal 1\n");
}

#[test]
fn clocks_of_32_bits() {
    let calls = [4_294_924_095, 4_294_924_096, u64::from(u32::MAX)];
    let night = night_of(&calls.map(|clock| Call::at(clock, "a.b")));
    reports(&night, "0 0 0 0\n1 13 0 0\n2 13 0 0\ntotal 3\n");
}

/// A call that meets many of the rules, good or refused; its name has no
/// capitals. It asks for the old way, as a recorded call does when it is read.
fn any_call(random: &mut Random, clock: u64) -> Call {
    let name = format!("host{}", random.below(140));
    let mut call = Call::at(clock, &name).in_the_old_way();
    if random.below(30) == 0 {
        // Often too long for a label.
        call.name = vec![b'a'; random.below(301) as usize];
    }
    call.clock -= 5 * u64::from(random.below(30) == 0);
    call.handshake_finished = random.below(30) != 0;
    call.key_is_point = random.below(30) != 0;
    call.signature_correct = random.below(30) != 0;
    call.hash[0] += u8::from(random.below(30) == 0);
    match random.below(12) {
        0 => call,
        1 => call.with(vec![0; random.below(4097) as usize]),
        2 => {
            call.breaks_correct = random.below(4) as u8;
            call.with(breaking(&[any_key(random), any_key(random)]))
        }
        _ => {
            let key = any_key(random);
            let generation = 3 + random.below(2) as u8;
            let expiration = clock as u32 - u32::from(random.below(8) == 0);
            let tack = tack(key, random.below(5) as u8, generation, expiration);
            call.with(extension(&tack, &[], random.below(2) as u8))
        }
    }
}

fn any_key(random: &mut Random) -> [u8; 64] {
    key(random.below(80) as u8)
}

pub fn any_night(seed: u64, calls: usize) -> Vec<Call> {
    let mut random = Random(seed);
    let mut clock = 1000;
    let mut next = || {
        clock += random.below(30);
        any_call(&mut random, clock)
    };
    (0..calls).map(|_| next()).collect()
}

/// What the judge of the lent area answers, call by call.
pub fn expected(calls: &[Call]) -> (String, Tally) {
    let mut area = empty_area();
    let mut tally = Tally::default();
    let mut text = String::new();
    for (index, call) in calls.iter().enumerate() {
        let judgement = call.judge(&mut area);
        let no_room = u8::from(judgement.no_room);
        let (number, alert) = (judgement.number, judgement.alert);
        text += &format!("{index} {number} {alert} {no_room}\n");
        tally.counts[usize::from(number)] += 1;
    }
    text += &format!("total {}\n", calls.len());
    (text, tally)
}

/// Gives the bytes in pieces, with interruptions between them.
struct Pieces<'a> {
    rest: &'a [u8],
    longest: usize,
    interrupted: bool,
}

impl Read for Pieces<'_> {
    fn read(&mut self, buffer: &mut [u8]) -> io::Result<usize> {
        assert!(buffer.len() <= 65_536, "the buffer is not bounded");
        self.interrupted = !self.interrupted;
        if self.interrupted {
            return Err(ErrorKind::Interrupted.into());
        }
        let length = self.longest.min(buffer.len());
        self.rest.read(&mut buffer[..length])
    }
}

/// The longest call and the length of the buffer are among the pieces.
#[test]
fn a_night_longer_than_the_buffer() {
    let calls = any_night(5, 5000);
    let night = night_of(&calls);
    assert!(night.len() > 10 * 65_536);
    let (text, tally) = expected(&calls);
    assert!(text.contains(" 0 0 1\n"));
    for longest in [1, 3, 4451, 4452, 4453, 65_535, 65_536, night.len()] {
        let input = Pieces {
            rest: &night,
            longest,
            interrupted: false,
        };
        let mut output = Vec::new();
        assert_eq!(replay(input, &mut output).unwrap(), tally);
        assert!(output == text.as_bytes());
    }
}

/// The buffer's end falls on every byte of a call.
#[test]
fn a_call_across_the_end_of_the_buffer() {
    let call = e5().recorded();
    let calls = 100_000 / call.len();
    let mut text = "0 12 0 0\n1 0 0 0\n".to_string();
    text.extend((2..calls + 2).map(|index| format!("{index} 1 0 0\n")));
    text += &format!("total {}\n", calls + 2);
    for shift in 0..=call.len() {
        let mut night = night_of(&[Call::at(1000, &"_".repeat(shift)), e4()]);
        night.extend(call.repeat(calls));
        reports(&night, &text);
    }
}

#[test]
fn nights_by_the_judge_of_the_area() {
    for seed in 1..=6 {
        let calls = any_night(seed, 1500);
        let (text, tally) = expected(&calls);
        let night = night_of(&calls);
        reports(&night, &text);
        assert_eq!(replay(night.as_slice(), io::sink()).unwrap(), tally);
        let sum: u32 = tally.counts.iter().sum();
        assert_eq!(sum, 1500);
        // An expired tack may be what revokes a later one.
        assert!(tally.counts[22] > 0 && tally.counts[23] > 0);
    }
}

#[test]
fn e4_then_e5_in_capitals() {
    let in_capitals = |call: Call, name: &str| Call {
        name: name.as_bytes().to_vec(),
        ..call
    };
    let night = night_of(&[in_capitals(e4(), "A.b"), in_capitals(e5(), "a.B")]);
    reports(&night, "0 0 0 0\n1 1 0 0\ntotal 2\n");
}

/// The report is that on small letters; every verdict is among its lines, and
/// the refusal of a malformed name.
#[test]
fn a_night_of_mixed_spellings() {
    let calls = any_night(7, 3000);
    let (text, tally) = expected(&calls);
    for number in [0, 1, 2, 12] {
        assert_ne!(tally.counts[number], 0, "{number}");
    }
    let night = night_of(&respelled_night(8, &calls));
    assert!(night != night_of(&calls));
    reports(&night, &text);
    assert_eq!(replay(night.as_slice(), io::sink()).unwrap(), tally);
}

/// A bad call is neither judged nor counted, and nothing is read after it.
#[test]
fn a_bad_call_ends_the_report() {
    let calls = any_night(9, 700);
    let (text, tally) = expected(&calls);
    let lines = text.strip_suffix("total 700\n").unwrap();
    let night = [night_of(&calls), with_field(3, &[0; 31])].concat();
    let input = night.as_slice().chain(io::repeat(6));
    let mut output = Vec::new();
    assert_eq!(replay(input, &mut output).unwrap(), tally);
    assert_eq!(String::from_utf8(output).unwrap(), format!("{lines}bad\n"));
}

struct Failing;

impl Read for Failing {
    fn read(&mut self, _: &mut [u8]) -> io::Result<usize> {
        Err(ErrorKind::ConnectionReset.into())
    }
}

impl Write for Failing {
    fn write(&mut self, _: &[u8]) -> io::Result<usize> {
        Err(ErrorKind::BrokenPipe.into())
    }

    fn flush(&mut self) -> io::Result<()> {
        Ok(())
    }
}

#[test]
fn read_and_write_errors() {
    let night = e4().recorded();
    let mut output = Vec::new();
    let error = replay(night.chain(Failing), &mut output).unwrap_err();
    assert_eq!(error.kind(), ErrorKind::ConnectionReset);
    assert!(!output.ends_with(b"total 1\n"));
    for night in [night_of(&[]), night_of(&any_night(3, 20_000))] {
        let error = replay(night.as_slice(), Failing).unwrap_err();
        assert_eq!(error.kind(), ErrorKind::BrokenPipe);
    }
}

#[test]
fn the_writer_goes_round() {
    let mut night = Vec::new();
    let mut calls = any_night(4, 300);
    calls.push(Call::at(u64::from(u32::MAX), &"a".repeat(300)).with(vec![1; 4096]));
    calls.push(Call::at(0, "").with(Vec::new()));
    // A recorded name keeps its spelling.
    calls.push(Call::at(1000, "Desk.Example"));
    for call in &calls {
        assert_eq!(write_call(&call.connection(), &mut night), Ok(()));
    }
    assert!(night == night_of(&calls));
    let mut rest = night.as_slice();
    for call in calls {
        let (read, after) = read_call(rest).unwrap();
        // Whatever the call asked for when it was written.
        assert_eq!(read, call.in_the_old_way().connection());
        rest = after;
    }
    assert!(rest.is_empty());
}

/// Both ways have one recorded form, which is read as the old way.
#[test]
fn the_choice_is_not_recorded() {
    for call in [e4(), Call::at(1000, "a.b").with(showing_disabled(K))] {
        for written in call.in_both_ways() {
            let mut night = Vec::new();
            assert_eq!(write_call(&written.connection(), &mut night), Ok(()));
            assert!(night == call.recorded());
            assert!(read_call(&night).unwrap().0.learn_disabled);
        }
    }
}

/// The first call makes a record; by the default the second would, and it would
/// not be confirmed.
#[test]
fn a_night_learns_from_disabled_servers() {
    let disabled = Call::at(1000, "a.b").with(showing_disabled(K));
    let night = night_of(&[disabled, e5()]);
    reports(&night, "0 0 0 0\n1 1 0 0\ntotal 2\n");
}

#[test]
fn a_night_of_disabled_servers_finds_no_room() {
    let names = (0..129).map(|number| format!("host{number}"));
    let calls: Vec<Call> = names
        .map(|name| Call::at(1000, &name).with(showing_disabled(K)))
        .collect();
    let text = String::from_utf8(report(&night_of(&calls))).unwrap();
    assert!(text.ends_with("127 0 0 0\n128 0 0 1\ntotal 129\n"));
}

#[test]
fn the_writer_refuses_what_cannot_be_recorded() {
    let call = e4();
    let late = Call::at(u64::from(u32::MAX) + 1, "a.b");
    let name = Call::at(1000, &"a".repeat(301));
    let extension = call.clone().with(vec![0; 4097]);
    let mut refused = vec![
        (late, NotRecordable::ClockAbove32Bits),
        (name, NotRecordable::NameTooLong),
        (extension, NotRecordable::ExtensionTooLong),
    ];
    for length in [0, 31, 33] {
        let mut call = call.clone();
        call.hash = vec![0; length];
        refused.push((call, NotRecordable::HashLengthWrong));
    }
    for (call, reason) in refused {
        let mut night = e4().recorded();
        let before = night.clone();
        assert_eq!(write_call(&call.connection(), &mut night), Err(reason));
        assert!(night == before);
    }
}

#[test]
fn the_tally_counts_each_number() {
    let early = Call::at(1599, "a.b");
    let malformed = Call::at(1600, "A-");
    let calls = [e4(), e5(), e5(), early, malformed];
    let tally = replay(night_of(&calls).as_slice(), io::sink()).unwrap();
    let mut counts = [0; 32];
    (counts[0], counts[1], counts[12], counts[14]) = (1, 2, 1, 1);
    assert_eq!(tally, Tally { counts });
    assert_eq!(tally.to_string(), "0 1\n1 2\n12 1\n14 1\n");
    assert_eq!(Tally::default().to_string(), "");
}

#[test]
fn the_tally_stays_at_the_top() {
    let mut table = PinTable::empty();
    let mut tally = Tally::default();
    tally.counts[0] = u32::MAX - 1;
    let call = Call::at(1000, "a.b");
    for _ in 0..3 {
        let judgement = judge_counted(&mut table, &call.connection(), &mut tally);
        assert_eq!(judgement.number, 0);
        assert_eq!(tally.counts[0], u32::MAX);
    }
    assert!(tally.counts[1..].iter().all(|count| *count == 0));
    assert_eq!(tally.to_string(), "0 4294967295\n");

    let full = Tally {
        counts: [u32::MAX; 32],
    };
    let mut counted = full.clone();
    for number in 0..=255 {
        counted.count(number);
    }
    assert_eq!(counted, full);
}
