//! Repeated measurements: the median, and how far they spread.

use std::fmt;
use std::time::Instant;

/// The time of one call in microseconds, least first, one number for each repeat.
pub struct Timing(Vec<f64>);

impl Timing {
    /// The times of one call, at least one and in any order.
    pub fn of(mut times: Vec<f64>) -> Timing {
        times.sort_by(f64::total_cmp);
        Timing(times)
    }

    pub fn median(&self) -> f64 {
        self.0[self.0.len() / 2]
    }

    pub fn least(&self) -> f64 {
        self.0[0]
    }

    pub fn most(&self) -> f64 {
        self.0[self.0.len() - 1]
    }
}

/// Calls a second: the median, and the least to the most.
impl Timing {
    pub fn per_second(&self) -> (f64, String) {
        let per_second = |microseconds: f64| 1e6 / microseconds;
        let (least, most) = (per_second(self.most()), per_second(self.least()));
        let spread = format!("({least:.0} to {most:.0})");
        (per_second(self.median()), spread)
    }
}

impl fmt::Display for Timing {
    fn fmt(&self, f: &mut fmt::Formatter<'_>) -> fmt::Result {
        let [median, least, most] = [self.median(), self.least(), self.most()].map(in_hundredths);
        f.pad(&format!("{median} ({least} to {most})"))
    }
}

/// With two places behind the point; a small time below 0 is 0.00.
pub fn in_hundredths(time: f64) -> String {
    let rounded = (100.0 * time).round() / 100.0 + 0.0;
    format!("{rounded:.2}")
}

/// Times each job, which makes so many calls, in turn and again, so that a slow moment of the machine meets all of them.
pub fn measure<const N: usize>(
    repeats: usize,
    calls: usize,
    mut jobs: [&mut dyn FnMut(); N],
) -> [Timing; N] {
    let mut times = [(); N].map(|_| Vec::new());
    for _ in 0..repeats {
        for (job, times) in jobs.iter_mut().zip(&mut times) {
            let began = Instant::now();
            job();
            times.push(began.elapsed().as_secs_f64() * 1e6 / calls as f64);
        }
    }
    times.map(Timing::of)
}
