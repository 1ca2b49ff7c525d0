//! How often each kind of something came, and the verdict on a run.

use std::marker::PhantomData;

/// Kinds of something, by number.
pub trait Kind {
    /// What they are kinds of.
    const WHAT: &'static str;
    /// What each kind says, in the order of their numbers.
    const SAYS: &'static [&'static str];

    fn number(self) -> usize;
}

/// An enum of kinds, each with what it says.
macro_rules! counted_kinds {
    ($(#[$about:meta])* $kinds:ident, $what:literal; $($kind:ident, $says:literal;)*) => {
        $(#[$about])*
        #[derive(Debug, Clone, Copy, PartialEq, Eq)]
        pub enum $kinds {
            $($kind),*
        }

        impl $crate::kind_counts::Kind for $kinds {
            const WHAT: &'static str = $what;
            const SAYS: &'static [&'static str] = &[$($says),*];

            fn number(self) -> usize {
                self as usize
            }
        }
    };
}

pub(crate) use counted_kinds;

/// Counts by kind; a run that never meets a kind has shown nothing of it.
pub struct KindCounts<K> {
    counts: Vec<u64>,
    kinds: PhantomData<K>,
}

impl<K: Kind> Default for KindCounts<K> {
    fn default() -> KindCounts<K> {
        KindCounts {
            counts: vec![0; K::SAYS.len()],
            kinds: PhantomData,
        }
    }
}

impl<K: Kind> KindCounts<K> {
    pub fn add(&mut self, kind: K) {
        self.counts[kind.number()] += 1;
    }

    /// Prints the counts; the verdict: every kind came.
    pub fn report(&self) -> Result<(), String> {
        let what = K::WHAT;
        let mut never = vec![];
        for (says, count) in K::SAYS.iter().zip(&self.counts) {
            println!("{what}: {says:<64} {count:>6}");
            if *count == 0 {
                never.push(says);
            }
        }
        match never.is_empty() {
            true => Ok(()),
            false => Err(format!("{what} that never came: {never:?}")),
        }
    }
}

#[test]
fn a_kind_that_never_came_is_told() {
    counted_kinds! {
        Side, "sides";
        Left, "left";
        Right, "right";
    }
    let mut counts = KindCounts::default();
    counts.add(Side::Right);
    assert_eq!(
        counts.report(),
        Err(r#"sides that never came: ["left"]"#.to_string())
    );
    counts.add(Side::Left);
    assert_eq!(counts.report(), Ok(()));
}
