//! Well-formed names of any length, in labels of any length.

/// Labels of so many letters a. No dot is last: the last label may have one letter more.
pub fn of_one_letter(length: usize, letters: usize) -> Vec<u8> {
    let byte = |place| match place % (letters + 1) == letters && place + 1 < length {
        true => b'.',
        false => b'a',
    };
    (0..length).map(byte).collect()
}

/// The same labels of different letters and digits, so that a part of the name taken for another would be seen.
pub fn of_many_letters(length: usize, letters: usize) -> Vec<u8> {
    let many = b"abcdefghijklmnopqrstuvwxyz0123456789".iter().cycle();
    let one = of_one_letter(length, letters);
    let byte = |(one, &many)| if one == b'.' { one } else { many };
    one.into_iter().zip(many).map(byte).collect()
}

#[test]
fn names_have_labels_as_asked() {
    assert_eq!(of_one_letter(7, 2), b"aa.aa.a");
    assert_eq!(of_one_letter(6, 2), b"aa.aaa");
    assert_eq!(of_one_letter(0, 2), b"");
    assert_eq!(of_many_letters(7, 2), b"ab.de.g");
}
