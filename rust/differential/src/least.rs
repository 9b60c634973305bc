//! The least time of each call over several runs of the same calls.
//!
//! A run of a load is some hundred calls of about 0.1 ms. Other work, the system and the clock of the
//! processor only ever add to a call's time, and seldom to the same call in each run: the sum of the
//! least of each is what the run takes undisturbed.

/// The nanoseconds of each call of a run.
pub type Times = Vec<u64>;

/// The least of each call, kept by halves: of the runs that were added first, third and so on, and
/// of the others.
#[derive(Default)]
pub struct Least {
    halves: [Times; 2],
    runs: usize,
}

impl Least {
    /// Adds a run.
    pub fn add(&mut self, times: &[u64]) {
        let half = &mut self.halves[self.runs % 2];
        self.runs += 1;
        if half.is_empty() {
            half.extend(times);
        }
        half.iter_mut().zip(times).for_each(|(least, time)| *least = (*least).min(*time));
    }

    /// The nanoseconds of all calls, each the least of all runs.
    pub fn total(&self) -> f64 {
        let [first, second] = &self.halves;
        first.iter().zip(second).map(|(a, b)| *a.min(b) as f64).sum()
    }

    /// How far it repeats: what the slower half comes to beside the other.
    pub fn repeats(&self) -> f64 {
        let [a, b] = self.halves.each_ref().map(|half| half.iter().sum::<u64>() as f64);
        a.max(b) / a.min(b)
    }
}
