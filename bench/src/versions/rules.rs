//! What each rule of the soundness check takes: tables that break one rule in the last slot, in the order of the rules, each
//! against the one before.

use super::line::Line;
use super::table::Table;
use super::version::Version;

/// The words of `lent_replay`, and what each checks beyond the one before; the last makes the whole check.
const UP_TO: [(&str, &str); 8] = [
    ("nothing", "the night is read"),
    ("head", "the call, and the first eight bytes"),
    ("keys-shaped", "keys are shaped"),
    ("keys-distinct", "no key twice"),
    ("names-shaped", "names are shaped"),
    ("names-distinct", "no name twice"),
    ("names-keyed", "each name has a key"),
    ("check", "each key has a name"),
];

pub struct Rules<'a> {
    pub version: &'static str,
    lines: [Line<'a>; 8],
}

impl<'a> Rules<'a> {
    /// Of a version of the proved library, on a full table.
    pub fn of(version: &Version, table: &'a Table) -> Rules<'a> {
        Rules {
            version: version.name,
            lines: UP_TO.map(|(word, beyond)| version.part(beyond, word, table)),
        }
    }

    pub fn lines_mut(&mut self) -> impl Iterator<Item = &mut Line<'a>> {
        self.lines.iter_mut()
    }

    pub fn print(&self) {
        let [reading, .., whole] = &self.lines;
        let whole = whole.cost.less(&reading.cost);
        for pair in self.lines.windows(2) {
            let rule = pair[1].cost.less(&pair[0].cost);
            rule.print_share(&pair[1].name, &whole);
        }
    }
}
