//! What each service answers and leaves in the slices: of its checks, the first that is met decides.

use super::census::census;
use super::order::Order;
use super::profile::{not_at_rest, off_heading};
use super::steps::{finds_by_steps, from_steps, steps_of, to_steps};
use super::tables::{bad_word, drive_of, halves, table_of};
use super::words::{listed_cuts, lyndon_array, occurrences};
use crate::calls::*;

/// What a table is: the lowest index of a bad word, the table of no drive, or that of a drive and chair number.
#[derive(Clone)]
enum Verdict {
    Bad(usize),
    Foreign,
    Drive(Vec<u8>, u16),
}

/// The answers, with the last table judged, the last one built, the last drive's Lyndon array and census and the last pattern's cuts kept, so that many calls on one
/// table judge it once.
#[derive(Default)]
pub struct Naive {
    judged: Kept<(Order, Vec<u32>), Verdict>,
    built: Kept<(Vec<u8>, u16), Vec<u32>>,
    lengths: Kept<Vec<u8>, Vec<usize>>,
    cuts: Kept<Vec<u8>, Vec<usize>>,
    census: Kept<(Vec<u8>, usize), Vec<(Vec<u8>, usize)>>,
}

/// What was made last, and from what.
struct Kept<K, V>(Option<(K, V)>);

impl<K, V> Default for Kept<K, V> {
    fn default() -> Self {
        Kept(None)
    }
}

impl<K: PartialEq, V: Clone> Kept<K, V> {
    /// What is made from these inputs, made again only if they are others than last.
    fn of(&mut self, inputs: K, make: impl FnOnce(&K) -> V) -> V {
        match &self.0 {
            Some((last, made)) if *last == inputs => made.clone(),
            _ => {
                let made = make(&inputs);
                self.0 = Some((inputs, made.clone()));
                made
            }
        }
    }
}

/// What a service writes.
enum Written {
    Nothing,
    Words(Vec<u32>),
    Bytes(Vec<u8>),
    /// The bytes of all runs, one run after the other, and a count for each.
    Runs(Vec<u8>, Vec<u32>),
}

impl Naive {
    /// What the call answers and leaves.
    pub fn answer(&mut self, call: &Call, lent: &Slices) -> (Outcome, Slices) {
        for (number, clears) in checks(call) {
            if let Some(place) = self.met(call, number, lent) {
                let left = if clears { cleared(lent) } else { lent.clone() };
                return (refusal(number, place), left);
            }
        }
        let mut left = cleared(lent);
        let entries = match self.written(call) {
            Written::Nothing => 0,
            Written::Words(words) => put(&words, &mut left.words),
            Written::Bytes(bytes) => put(&bytes, &mut left.bytes),
            Written::Runs(runs, counts) => {
                put(&runs, &mut left.bytes);
                put(&counts, &mut left.words)
            }
        };
        (self.success(call, entries), left)
    }

    /// Whether refusal `number` is met, and with which place; asked only where no earlier one is.
    fn met(&mut self, call: &Call, number: u32, lent: &Slices) -> Option<usize> {
        let met = match number {
            1 => text(call).len() > 2047,
            2 => pattern(call).is_empty(),
            3 => pattern(call).len() > 2047,
            4 => lent.work.len() < 16384,
            5 => matches!(table(call).len(), 0 | 4609..) || table(call).len() % 2 == 1,
            6 => match self.verdict(call) {
                Verdict::Bad(place) => return Some(place),
                _ => false,
            },
            7 => matches!(self.verdict(call), Verdict::Foreign),
            8 => match call {
                Call::Extract { start, length, .. } => *start as u128 + *length as u128 > self.drive(call).len() as u128,
                Call::LyndonLength { position, .. } => *position >= self.drive(call).len(),
                _ => false,
            },
            9 => {
                let (words, bytes) = (lent.words.len(), lent.bytes.len());
                let (short, needed) = match self.written(call) {
                    Written::Nothing => (false, 0),
                    Written::Words(result) => (words < result.len(), result.len()),
                    Written::Bytes(result) => (bytes < result.len(), result.len()),
                    Written::Runs(runs, counts) => (bytes < runs.len() || words < counts.len(), counts.len()),
                };
                return short.then_some(needed);
            }
            10 => call.by_steps() && pattern(call).len() == 1,
            11 => return off_heading(&self.profiled(call)),
            12 => not_at_rest(&self.profiled(call)),
            13 => !(1..=8).contains(&window(call)),
            _ => unreachable!("no refusal {number}"),
        };
        met.then_some(0)
    }

    /// Success gives the number of entries written, of a census the runs; checking gives the rules, counting the finds, a Lyndon length itself; reading back adds
    /// the chair number, a search its tests.
    fn success(&mut self, call: &Call, entries: usize) -> Outcome {
        let (count, chair) = match call {
            Call::Check { table } | Call::CheckProfile { table } => (table.len() / 2, 0),
            Call::Count { .. } => (self.finds(call).len(), 0),
            Call::LyndonLength { position, .. } => (self.lyndon_array(call)[*position], 0),
            Call::Read { .. } => (entries, self.chair(call)),
            _ => (entries, 0),
        };
        Outcome { number: 0, place: 0, count: count as u64, chair: chair as u32, tests: self.tests(call) as u64 }
    }

    /// How many pairs there are of a pair rule and a listed cut, where the left half has at least as many symbols as the pattern has before the cut, and the right
    /// half at least as many as it has from the cut on. A search by steps has the pattern's steps as its pattern.
    fn tests(&mut self, call: &Call) -> usize {
        let (Call::Count { table, pattern, .. } | Call::Locate { table, pattern, .. }) = call else { return 0 };
        let pattern = if call.by_steps() { steps_of(pattern) } else { pattern.clone() };
        let cuts = self.listed_cuts(&pattern);
        let fits = |(left, right): (usize, usize)| cuts.iter().filter(|&&cut| left >= cut && right >= pattern.len() - cut).count();
        halves(table).into_iter().map(fits).sum()
    }

    /// The positions that a search finds: by steps, in the drive that was rearranged.
    fn finds(&mut self, call: &Call) -> Vec<usize> {
        let text = self.drive(call);
        match call.by_steps() {
            true => finds_by_steps(pattern(call), &from_steps(&text)),
            false => occurrences(pattern(call), &text),
        }
    }

    /// How many samples the drive has in which a search or a census is done.
    pub fn samples(&mut self, call: &Call) -> usize {
        self.drive(call).len()
    }

    fn written(&mut self, call: &Call) -> Written {
        match call {
            Call::Build { text, chair } | Call::BuildProfile { text, chair } => Written::Words(self.build(text, *chair)),
            Call::Read { .. } => Written::Bytes(self.drive(call)),
            Call::Extract { start, length, .. } => Written::Bytes(self.drive(call)[*start..*start + *length].to_vec()),
            Call::Locate { .. } => Written::Words(as_words(&self.finds(call))),
            Call::Cuts { pattern } => Written::Words(as_words(&self.listed_cuts(pattern))),
            Call::LyndonArray { .. } => Written::Words(as_words(&self.lyndon_array(call))),
            Call::ToSigned { .. } => {
                let (drive, chair) = (self.drive(call), self.chair(call));
                Written::Words(self.build(&drive, chair))
            }
            Call::ToSteps { text } => Written::Bytes(to_steps(text)),
            Call::FromSteps { text } => Written::Bytes(from_steps(text)),
            Call::Census { q, .. } => {
                let drive = self.drive(call);
                let (runs, counts): (Vec<_>, Vec<_>) = self.census.of((drive, *q), |(drive, q)| census(drive, *q)).into_iter().unzip();
                Written::Runs(runs.concat(), as_words(&counts))
            }
            Call::Check { .. } | Call::CheckProfile { .. } | Call::Count { .. } | Call::LyndonLength { .. } => Written::Nothing,
        }
    }

    /// The drive of the call's table, which is accepted; where the table holds steps, the drive rearranged.
    fn drive(&mut self, call: &Call) -> Vec<u8> {
        match self.verdict(call) {
            Verdict::Drive(text, _) => text,
            _ => vec![],
        }
    }

    /// The drive that the profile is asked of: the one handed over, or that of the call's table.
    fn profiled(&mut self, call: &Call) -> Vec<u8> {
        match call {
            Call::BuildProfile { text, .. } => text.clone(),
            _ => self.drive(call),
        }
    }

    fn lyndon_array(&mut self, call: &Call) -> Vec<usize> {
        let drive = self.drive(call);
        self.lengths.of(drive, |drive| lyndon_array(&Order::Signed.values(drive)))
    }

    fn listed_cuts(&mut self, pattern: &[u8]) -> Vec<usize> {
        self.cuts.of(pattern.to_vec(), |pattern| listed_cuts(&Order::Signed.values(pattern)))
    }

    fn chair(&mut self, call: &Call) -> u16 {
        match self.verdict(call) {
            Verdict::Drive(_, chair) => chair,
            _ => 0,
        }
    }

    /// What the call's table is. The converter alone judges by the unsigned order.
    fn verdict(&mut self, call: &Call) -> Verdict {
        let order = if matches!(call, Call::ToSigned { .. }) { Order::Unsigned } else { Order::Signed };
        self.judged.of((order, table(call).to_vec()), |(order, table)| match bad_word(table) {
            Some(place) => Verdict::Bad(place),
            None => drive_of(*order, table).map_or(Verdict::Foreign, |(text, chair)| Verdict::Drive(text, chair)),
        })
    }

    fn build(&mut self, text: &[u8], chair: u16) -> Vec<u32> {
        self.built.of((text.to_vec(), chair), |(text, chair)| table_of(Order::Signed, text, *chair))
    }
}

/// The refusals that concern the service, in the order of its checks, and whether each clears the work slice: first those that leave it as it was.
fn checks(call: &Call) -> impl Iterator<Item = (u32, bool)> {
    let (leave, clear): (&[u32], &[u32]) = match call {
        Call::Build { .. } => (&[1, 4], &[9]),
        Call::Check { .. } => (&[4, 5, 6], &[7]),
        Call::Read { .. } | Call::LyndonArray { .. } | Call::ToSigned { .. } => (&[4, 5, 6], &[7, 9]),
        Call::Extract { .. } => (&[4, 5, 6], &[7, 8, 9]),
        Call::LyndonLength { .. } => (&[4, 5, 6], &[7, 8]),
        Call::Count { .. } => (&[2, 3, 10, 4, 5, 6], &[7]),
        Call::Locate { .. } => (&[2, 3, 10, 4, 5, 6], &[7, 9]),
        Call::Cuts { .. } => (&[2, 3, 9], &[]),
        Call::ToSteps { .. } | Call::FromSteps { .. } => (&[1, 9], &[]),
        Call::BuildProfile { .. } => (&[1, 11, 12, 4], &[9]),
        Call::CheckProfile { .. } => (&[4, 5, 6], &[7, 11, 12]),
        Call::Census { .. } => (&[13, 4, 5, 6], &[7, 9]),
    };
    leave.iter().map(|&number| (number, false)).chain(clear.iter().map(|&number| (number, true)))
}

fn refusal(number: u32, place: usize) -> Outcome {
    Outcome { number, place: place as u64, count: 0, chair: 0, tests: 0 }
}

/// The slices with the first 16,384 words of the work slice zero.
fn cleared(lent: &Slices) -> Slices {
    let mut left = lent.clone();
    left.work.iter_mut().take(16384).for_each(|word| *word = 0);
    left
}

/// Writes entries to the front of a slice, and answers how many they are.
fn put<T: Copy>(entries: &[T], slice: &mut [T]) -> usize {
    slice[..entries.len()].copy_from_slice(entries);
    entries.len()
}

fn as_words(numbers: &[usize]) -> Vec<u32> {
    numbers.iter().map(|&number| number as u32).collect()
}

fn text(call: &Call) -> &[u8] {
    match call {
        Call::Build { text, .. } | Call::BuildProfile { text, .. } | Call::ToSteps { text } | Call::FromSteps { text } => text,
        _ => &[],
    }
}

fn pattern(call: &Call) -> &[u8] {
    match call {
        Call::Count { pattern, .. } | Call::Locate { pattern, .. } | Call::Cuts { pattern } => pattern,
        _ => &[],
    }
}

/// How many samples a run of the census has.
fn window(call: &Call) -> usize {
    match call {
        Call::Census { q, .. } => *q,
        _ => 0,
    }
}

fn table(call: &Call) -> &[u32] {
    match call {
        Call::Build { .. } | Call::BuildProfile { .. } | Call::Cuts { .. } | Call::ToSteps { .. } | Call::FromSteps { .. } => &[],
        Call::Check { table } | Call::CheckProfile { table } | Call::Read { table } | Call::Extract { table, .. } => table,
        Call::Count { table, .. } | Call::Locate { table, .. } | Call::LyndonLength { table, .. } => table,
        Call::LyndonArray { table } | Call::ToSigned { table } | Call::Census { table, .. } => table,
    }
}
