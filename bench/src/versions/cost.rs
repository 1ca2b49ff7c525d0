//! What a call costs a program, by time and by instructions.

use crate::timing::Timing;
use std::fmt;

/// The microseconds of a call in each repeat, and its instructions.
#[derive(Default)]
pub struct Cost {
    pub microseconds: Vec<f64>,
    pub instructions: f64,
}

impl Cost {
    /// Repeat by repeat.
    pub fn less(&self, other: &Cost) -> Cost {
        let both = self.microseconds.iter().zip(&other.microseconds);
        Cost {
            microseconds: both.map(|(this, other)| this - other).collect(),
            instructions: self.instructions - other.instructions,
        }
    }

    pub fn timing(&self) -> Timing {
        Timing::of(self.microseconds.clone())
    }

    pub fn print(&self, what: &str) {
        println!("{what:<44} {self}");
    }

    /// With its shares of another cost, by the medians.
    pub fn print_share(&self, what: &str, of: &Cost) {
        let share = |part: f64, whole: f64| (100.0 * part / whole).round() + 0.0;
        let time = share(self.timing().median(), of.timing().median());
        let instructions = share(self.instructions, of.instructions);
        println!("{what:<44} {self} {time:>4} % {instructions:>4} %");
    }
}

impl fmt::Display for Cost {
    fn fmt(&self, f: &mut fmt::Formatter<'_>) -> fmt::Result {
        let instructions = grouped(self.instructions);
        write!(f, "{:<26} {instructions:>12}", self.timing())
    }
}

/// The nearest whole number, with commas between the thousands.
pub fn grouped(number: f64) -> String {
    let nearest = number.round() as i64;
    let digits = nearest.unsigned_abs().to_string();
    let mut grouped = String::from(if nearest < 0 { "-" } else { "" });
    for (place, digit) in digits.chars().enumerate() {
        if place > 0 && (digits.len() - place).is_multiple_of(3) {
            grouped.push(',');
        }
        grouped.push(digit);
    }
    grouped
}

#[test]
fn thousands_are_grouped() {
    let expected = ["0", "999", "-1,000", "12,346", "1,000,000"];
    assert_eq!([-0.4, 999.4, -1e3, 12_345.6, 1e6].map(grouped), expected);
}
