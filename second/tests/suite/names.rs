//! Well-formed and malformed names.

use second::is_well_formed;
use second::name::is_well_formed_in_table;

use crate::journal::Random;

#[test]
fn well_formed_names() {
    let labels_of_63 = format!("{0}.{0}.{0}.{1}", "a".repeat(63), "b".repeat(61));
    assert_eq!(labels_of_63.len(), 253);
    let dotted = "a.".repeat(126) + "a";
    assert_eq!(dotted.len(), 253);
    for name in [
        "a",
        "0",
        "a.b",
        "a-b",
        "a--b.c",
        "xn--a.example",
        "1.2.3.4",
        &labels_of_63,
        &dotted,
    ] {
        let capitals = name.to_ascii_uppercase();
        assert!(is_well_formed(name.as_bytes()), "{name}");
        assert!(is_well_formed(capitals.as_bytes()), "{capitals}");
        assert!(is_well_formed_in_table(name.as_bytes()), "{name}");
    }
}

#[test]
fn malformed_names() {
    let too_long = format!("{0}.{0}.{0}.{1}", "a".repeat(63), "b".repeat(62));
    assert_eq!(too_long.len(), 254);
    let long_label = "a".repeat(64);
    let long_last_label = format!("a.{long_label}");
    for name in [
        "",
        ".",
        "a.",
        ".a",
        "a..b",
        "-",
        "-a",
        "a-",
        "a.-b",
        "a-.b",
        "a_b",
        "a b",
        "a\0",
        "*.a",
        "\u{e4}",
        "\u{c4}",
        &too_long,
        &long_label,
        &long_last_label,
    ] {
        let capitals = name.to_ascii_uppercase();
        for name in [name, &capitals] {
            assert!(!is_well_formed(name.as_bytes()), "{name}");
            assert!(!is_well_formed_in_table(name.as_bytes()), "{name}");
        }
    }
}

#[test]
fn bytes_of_a_label() {
    for byte in 0..=255_u8 {
        let small = byte.is_ascii_lowercase() || byte.is_ascii_digit();
        let allowed = small || byte.is_ascii_uppercase();
        let joint = byte == b'-' || byte == b'.';
        let inside = [b'a', byte, b'a'];
        assert_eq!(is_well_formed(&[byte]), allowed);
        assert_eq!(is_well_formed(&inside), allowed || joint);
        assert_eq!(is_well_formed_in_table(&[byte]), small);
        assert_eq!(is_well_formed_in_table(&inside), small || joint);
    }
}

#[test]
fn a_table_has_no_capitals() {
    for name in ["A", "a.B", "Desk.Example", "xn--A"] {
        assert!(is_well_formed(name.as_bytes()), "{name}");
        assert!(!is_well_formed_in_table(name.as_bytes()), "{name}");
    }
}

/// Malformed exactly when the folded form is.
#[test]
fn any_name_answers_as_its_folded_form() {
    let bytes = b"aZaZaZ9-.@[\xDA";
    let mut random = Random(79);
    let mut well_formed = 0;
    for _ in 0..20_000 {
        let length = random.below(12);
        let mut byte = || bytes[random.below(bytes.len() as u64) as usize];
        let name: Vec<u8> = (0..length).map(|_| byte()).collect();
        let folded: Vec<u8> = name
            .iter()
            .map(|byte| if *byte == b'Z' { b'z' } else { *byte })
            .collect();
        let expected = is_well_formed_in_table(&folded);
        assert_eq!(is_well_formed(&name), expected, "{name:?}");
        well_formed += usize::from(expected);
    }
    assert!((1000..19_000).contains(&well_formed));
}
