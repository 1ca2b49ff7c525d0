//! Any bytes of any length get an answer, and a refusal changes nothing, but that
//! 23 of edition one may change a floor.

use second::extension::{breaks_span, read, signed_bytes, tack_span, write};
use second::{delete, extension_two, inspect, is_sound, is_well_formed, start};

use crate::calls::*;
use crate::calls_two::{showing_two, CallTwo};
use crate::capitals::{any_spelling, respelled};
use crate::journal::Random;

fn bytes(random: &mut Random, longest: u64) -> Vec<u8> {
    let length = random.below(longest + 1);
    // Small values, letters and anything at all, so that more rules are met.
    let kind = random.below(3);
    let byte = |random: &mut Random| match kind {
        0 => random.below(3) as u8,
        // From A to z, with the bytes between the capitals and the small letters.
        1 => b'A' + random.below(58) as u8,
        _ => random.below(256) as u8,
    };
    (0..length).map(|_| byte(random)).collect()
}

#[test]
fn extensions_and_names() {
    let mut random = Random(77);
    for _ in 0..3000 {
        let (tack, breaks) = (bytes(&mut random, 400), bytes(&mut random, 1400));
        let reading = read(&tack);
        assert!(reading.number == 9 || reading.number == 16);
        for span in [tack_span(&tack), breaks_span(&tack)] {
            assert!(span.start + span.length <= tack.len());
        }
        is_well_formed(&tack);
        let mut out = bytes(&mut random, 300);
        let before = out.clone();
        let activation = random.below(3) as u8;
        let writing = write(&tack, &breaks, activation, &mut out);
        assert_eq!(out[writing.written..], before[writing.written..]);
        let mut out = before.clone();
        let writing = signed_bytes(&tack, &mut out);
        assert_eq!(out[writing.written..], before[writing.written..]);
    }
}

#[test]
fn extensions_of_edition_two() {
    let mut random = Random(79);
    let mut written = 0;
    for _ in 0..3000 {
        let any = bytes(&mut random, 400);
        let reading = extension_two::read(&any);
        assert!(reading.number == 9 || reading.number == 16);
        assert_eq!(extension_two::parse(&any).is_some(), reading.number == 9);
        for second in [false, true] {
            let span = extension_two::tack_span(&any, second);
            assert!(span.start + span.length <= any.len());
        }
        let length = [166, 332, any.len()][random.below(3) as usize];
        let tacks = vec![7; length];
        let mut out = bytes(&mut random, 600);
        let before = out.clone();
        let writing = extension_two::write(&tacks, random.below(5) as u8, &mut out);
        assert_eq!(out[writing.written..], before[writing.written..]);
        if writing.number == 9 {
            let reading = extension_two::read(&out[..writing.written]);
            assert_eq!(reading.number, 9);
            written += 1;
        }
    }
    assert!(written > 0);
}

#[test]
fn areas_with_a_few_changed_bytes() {
    let mut random = Random(78);
    let mut base = empty_area();
    for number in 0..10 {
        let call = Call::at(1000, &format!("host{number}"));
        call.with(showing(key(number % 4))).judge(&mut base);
    }
    for round in 0..400 {
        let mut area = base.clone();
        area[4] = (round % 2) as u8;
        for _ in 0..random.below(3) {
            let at = random.below(2 * 5000) as usize;
            area[at] = random.below(256) as u8;
        }
        answers_are_consistent(&mut random, &area);
    }
    for length in [0, 1, 7, 8, 80, 4616, 39_431, 39_433] {
        answers_are_consistent(&mut random, &vec![1; length]);
    }
}

fn answers_are_consistent(random: &mut Random, area: &[u8]) {
    let name = format!("host{}", random.below(12));
    let spelling = any_spelling(random, name.as_bytes());
    let clock = [0, 999, 1000, 1001, 50_000, u64::MAX][random.below(6) as usize];
    let mut call = respelled(random, &Call::at(clock, &name));
    let shown = key(random.below(6) as u8);
    match random.below(3) {
        0 => {}
        1 => call = call.with(showing(shown)),
        _ => call = call.with(extension(&tack(shown, 4, 5, 999), &[], 1)),
    }
    let mut call_two = CallTwo::at(clock, &name);
    if random.below(2) == 0 {
        let keys = [0, 1].map(|_| key(random.below(6) as u8));
        call_two = call_two.with(showing_two(&keys, random.below(4) as u8));
    }
    let sound = is_sound(area);
    let edition = area.get(4);
    is_judged(area, edition == Some(&0), |area| call.number(area));
    is_judged(area, edition == Some(&1), |area| call_two.number(area));

    let mut after = area.to_vec();
    let number = delete(&mut after, &spelling).number;
    assert_eq!(number == 3 || number == 4, sound);
    assert!(if number == 3 {
        is_sound(&after)
    } else {
        after == area
    });

    for yes in [false, true] {
        inspect(area, &spelling, clock, yes);
        let mut after = area.to_vec();
        let started = start(&mut after, yes).number == 7;
        assert_eq!(started, area.len() == 39_432);
    }
}

/// By the judge of an edition, which may be the one of the area or not.
fn is_judged(area: &[u8], same_edition: bool, judge: impl Fn(&mut [u8]) -> u8) {
    let mut after = area.to_vec();
    let number = judge(&mut after);
    let sound = is_sound(area);
    assert_eq!(number >= 12 || number <= 2, sound);
    assert_eq!(number == 27, sound && !same_edition);
    assert!(match number {
        0..=2 => is_sound(&after),
        23 => is_sound(&after) && changed_bytes(area, &after) <= 1,
        _ => after == area,
    });
}

fn changed_bytes(before: &[u8], after: &[u8]) -> usize {
    let bytes = before.iter().zip(after);
    bytes.filter(|(before, after)| before != after).count()
}
