//! Spellings of a name: in letters of either case it is one name, and the table keeps it in small letters.

use crate::random::Random;

/// How a name's letters are spelled.
#[derive(Debug, Clone, Copy, PartialEq, Eq)]
pub enum Spelling {
    /// No letter is a capital.
    Small,
    OneCapital,
    SomeCapitals,
    AllCapitals,
}

impl Spelling {
    pub fn of(name: &[u8]) -> Spelling {
        let capitals = name.iter().filter(|byte| byte.is_ascii_uppercase()).count();
        let has_small = name.iter().any(u8::is_ascii_lowercase);
        match capitals {
            0 => Spelling::Small,
            _ if !has_small => Spelling::AllCapitals,
            1 => Spelling::OneCapital,
            _ => Spelling::SomeCapitals,
        }
    }
}

/// The name as the table keeps it: A-Z as a-z, every other byte as it is.
pub fn small(name: &[u8]) -> Vec<u8> {
    name.to_ascii_lowercase()
}

pub fn has_capital(name: &[u8]) -> bool {
    // Every name of every table is asked, and hardly ever has one: to look at all bytes at once is the fastest.
    name.iter()
        .fold(false, |found, byte| found | byte.is_ascii_uppercase())
}

/// The name as it is, or, once in four times, with capitals.
pub fn any(name: Vec<u8>, random: &mut Random) -> Vec<u8> {
    match random.one_in(4) {
        true => with_capitals(name, random),
        false => name,
    }
}

/// One letter of the name in capitals, some letters, or all. A name without small letters stays as it is.
pub fn with_capitals(mut name: Vec<u8>, random: &mut Random) -> Vec<u8> {
    let is_small = |&place: &usize| name[place].is_ascii_lowercase();
    let letters: Vec<usize> = (0..name.len()).filter(is_small).collect();
    if letters.is_empty() {
        return name;
    }
    name[*random.pick(&letters)].make_ascii_uppercase();
    match random.below(4) {
        0 => {}
        1 => name.make_ascii_uppercase(),
        _ => {
            for place in letters {
                if random.one_in(2) {
                    name[place].make_ascii_uppercase();
                }
            }
        }
    }
    name
}

#[test]
fn the_bytes_beside_the_letters_are_no_capitals() {
    assert_eq!(small(b"@AZ[`az{"), b"@az[`az{");
    assert!(!has_capital(b"@[`{az"));
    assert!(has_capital(b"A") && has_capital(b"Z"));
}

#[test]
fn every_spelling_has_a_capital_and_is_of_its_name() {
    let mut random = Random::new(1);
    for _ in 0..100 {
        let spelled = with_capitals(b"ab-1.xz".to_vec(), &mut random);
        assert!(has_capital(&spelled));
        assert_eq!(small(&spelled), b"ab-1.xz");
    }
    assert_eq!(with_capitals(b"1-2.3".to_vec(), &mut random), b"1-2.3");
}
