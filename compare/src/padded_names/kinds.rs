//! The kinds of name fields, how often each came, and the verdict on a run.

/// What a kind of field makes of a table.
#[derive(Clone, Copy, PartialEq, Eq)]
enum Verdict {
    Sound,
    Damaged,
    /// Both must come.
    Either,
}

macro_rules! kinds {
    ($($kind:ident, $says:literal, $verdict:ident;)*) => {
        #[derive(Debug, Clone, Copy)]
        pub enum Kind {
            $($kind),*
        }

        /// In the order of the kinds.
        const KINDS: &[(&str, Verdict)] = &[$(($says, Verdict::$verdict)),*];
    };
}

#[rustfmt::skip]
kinds! {
    ShortLabels, "1 to 253 bytes, labels of 30", Sound;
    LongestLabels, "1 to 253 bytes, labels of 63", Sound;
    LabelTooLong, "64 to 253 bytes, labels of 64", Damaged;
    LengthOutside, "0, 254 or 255 bytes", Damaged;

    LetterOrDigit, "a letter or a digit", Sound;
    HyphenWithin, "a hyphen within", Either;
    HyphenAtEnd, "a hyphen first or last", Damaged;
    DotWithin, "a dot within", Either;
    DotAtEnd, "a dot first or last", Damaged;
    Zero, "a zero within", Damaged;
    Capital, "a capital", Damaged;
    Other, "another byte", Damaged;

    TwoLetters, "two letters", Sound;
    HyphenAndLetter, "a hyphen and a letter", Either;
    DotAndLetter, "a dot and a letter", Either;
    TwoHyphens, "two hyphens", Either;
    HyphenThenDot, "a hyphen before a dot", Damaged;
    DotThenHyphen, "a dot before a hyphen", Damaged;
    TwoDots, "two dots", Damaged;

    Behind, "a byte behind the name", Damaged;

    Drawn, "random", Either;
    DrawnByte, "random, with any byte", Either;
    DrawnLength, "random, of a wrong length", Damaged;
    DrawnBehind, "random, with bytes behind", Damaged;
}

/// How many tables were sound with fields of a kind, and how many damaged.
#[derive(Default, Clone, Copy)]
struct Count {
    sound: u64,
    damaged: u64,
}

/// What the fields have met so far, by kind.
pub struct Counts(Vec<Count>);

impl Default for Counts {
    fn default() -> Counts {
        Counts(vec![Count::default(); KINDS.len()])
    }
}

impl Counts {
    /// What both programs say of a table with a field of the kind; an error where the kind allows only the contrary.
    pub fn add(&mut self, kind: Kind, is_sound: bool) -> Result<(), String> {
        let Count { sound, damaged } = &mut self.0[kind as usize];
        let (count, contrary) = match is_sound {
            true => (sound, Verdict::Damaged),
            false => (damaged, Verdict::Sound),
        };
        *count += 1;
        match KINDS[kind as usize].1 == contrary {
            true => Err(format!("both find the table sound: {is_sound}")),
            false => Ok(()),
        }
    }

    /// The verdict: every kind came, with every verdict that it has.
    pub fn finish(&self) -> Result<(), String> {
        let mut never = vec![];
        for ((says, verdict), Count { sound, damaged }) in KINDS.iter().zip(&self.0) {
            println!("name fields: {says:<30} {sound:>6} sound, {damaged:>6} damaged");
            let came = match verdict {
                Verdict::Sound => *sound > 0,
                Verdict::Damaged => *damaged > 0,
                Verdict::Either => *sound > 0 && *damaged > 0,
            };
            if !came {
                never.push(says);
            }
        }
        match never.is_empty() {
            true => Ok(()),
            false => Err(format!(
                "name fields that never came, sound or damaged: {never:?}"
            )),
        }
    }
}
