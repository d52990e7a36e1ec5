//! How many pairs of samples are compared when the cuts of a pattern are listed: the Rust side's scan, on samples that count how often they are compared.

use crate::search::{list, Sample};
use std::cell::Cell;

thread_local! {
    static PAIRS: Cell<usize> = const { Cell::new(0) };
}

#[derive(Clone, Copy)]
struct Counted(u8);

impl PartialEq for Counted {
    fn eq(&self, other: &Counted) -> bool {
        PAIRS.set(PAIRS.get() + 1);
        self.0 == other.0
    }
}

impl Sample for Counted {
    fn rank(self) -> u32 {
        self.0.rank()
    }
}

pub fn compared(pattern: &[u8]) -> usize {
    PAIRS.set(0);
    let counted: Vec<Counted> = pattern.iter().copied().map(Counted).collect();
    list(&counted, &mut [0; 11]);
    PAIRS.get()
}
