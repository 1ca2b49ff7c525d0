//! How often each number came, and the verdict on a run.

/// Counts by number; a run that never meets a number has shown nothing of it.
#[derive(Default)]
pub struct Tally {
    counts: [u64; 32],
}

impl Tally {
    pub fn add(&mut self, number: u8) {
        self.add_times(number, 1);
    }

    pub fn add_times(&mut self, number: u8, times: u64) {
        self.counts[usize::from(number) % 32] += times;
    }

    /// Prints the counts, and gives the numbers that never came.
    pub fn report(&self, what: &str, expected: &[u8]) -> Result<(), String> {
        let line: Vec<String> = expected
            .iter()
            .map(|&n| format!("{n}: {}", self.counts[usize::from(n)]))
            .collect();
        println!("{what} by number: {}", line.join(", "));
        let never: Vec<u8> = expected
            .iter()
            .copied()
            .filter(|&n| self.counts[usize::from(n)] == 0)
            .collect();
        match never.is_empty() {
            true => Ok(()),
            false => Err(format!("{what}: the numbers {never:?} never came")),
        }
    }
}
