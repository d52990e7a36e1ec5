//! How many calls of each service were compared, and how many of these were refused, by number.

use crate::calls::{Call, Outcome, REFUSALS, SERVICES};

#[derive(Default)]
pub struct Tally {
    calls: [[usize; REFUSALS + 1]; SERVICES.len()],
}

impl Tally {
    pub fn add(&mut self, call: &Call, outcome: &Outcome) {
        self.calls[call.service()][outcome.number as usize] += 1;
    }

    pub fn add_all(&mut self, other: &Tally) {
        for (mine, theirs) in self.calls.iter_mut().zip(&other.calls) {
            mine.iter_mut().zip(theirs).for_each(|(mine, theirs)| *mine += theirs);
        }
    }

    pub fn total(&self) -> usize {
        self.calls.iter().flatten().sum()
    }

    /// One line a service.
    pub fn print(&self) {
        for (service, calls) in SERVICES.iter().zip(&self.calls) {
            let refused: Vec<String> = (1..=REFUSALS).filter(|&n| calls[n] > 0).map(|n| format!("{n}: {}", calls[n])).collect();
            println!("  {service:15}{:7} calls, refused by {}", calls.iter().sum::<usize>(), refused.join(", "));
        }
    }
}
