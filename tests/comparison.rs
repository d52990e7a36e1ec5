//! Compares the library with the naive implementation on generated inputs: number, place, count, chair number, tests, and all of every lent slice. The first
//! disagreement is printed and ends the run.

mod calls;
mod damage;
mod inputs;
mod lending;
mod library;
mod naive;
mod tally;

use calls::*;
use damage::every_table;
use inputs::{distinct_pairs, fibonacci, nested, Generator};
use naive::{Naive, Order};
use tally::Tally;

fn main() {
    let long = std::thread::spawn(|| Comparison::new(0x9E3779B97F4A7C15).long_texts());
    let misruled = std::thread::spawn(|| Comparison::new(0xA0761D6478BD642F).misruled_tables(100_000));
    let profiles = std::thread::spawn(|| Comparison::new(0xE7037ED1A0B428DB).profiles());
    let censuses = std::thread::spawn(|| Comparison::new(0x8EBC6AF09C88C6E3).censuses());
    let mut tally = Comparison::new(0xD1B54A32D192ED03).short_texts();
    tally.add_all(&long.join().unwrap());
    tally.add_all(&misruled.join().unwrap());
    tally.add_all(&profiles.join().unwrap());
    tally.add_all(&censuses.join().unwrap());
    println!("comparison: {} calls agree with the naive implementation", tally.total());
    tally.print();
}

struct Comparison {
    generator: Generator,
    naive: Naive,
    tally: Tally,
}

impl Comparison {
    fn new(seed: u64) -> Self {
        Comparison { generator: Generator::new(seed), naive: Naive::default(), tally: Tally::default() }
    }

    fn short_texts(mut self) -> Tally {
        self.every_small_text();
        self.every_small_drive();
        self.powers();
        for table in (1..=5).flat_map(every_table) {
            self.compare_once(Call::Check { table: table.clone() });
            self.compare_once(Call::CheckProfile { table: table.clone() });
            self.compare_once(Call::ToSigned { table });
        }
        for _ in 0..4000 {
            let n = self.generator.below(61);
            let text = self.generator.text(n);
            self.text(&text, 3, 3);
        }
        self.tally
    }

    fn long_texts(mut self) -> Tally {
        for n in [2046, 2047, 2048, 3000] {
            self.text(&distinct_pairs(0, n), 4, 4);
            self.text(&fibonacci(b'a', b'b', n), 4, 4);
            self.text(&vec![255; n], 4, 4);
        }
        for _ in 0..120 {
            let any = self.generator.below(2048);
            let n = self.generator.one_of(&[2047, 2047, any, any]);
            let text = self.generator.text(n);
            self.text(&text, 6, 8);
        }
        self.tally
    }

    /// So many tables whose rules are changed, checked, and as many of the former order, converted.
    fn misruled_tables(mut self, tables: usize) -> Tally {
        let lent = Slices { work: self.generator.words(16384), words: self.generator.words(4608), bytes: vec![] };
        for _ in 0..tables / 50 {
            let n = self.generator.one_of(&[0, 1, 2, 3, 5, 8, 12, 20, 40, 200]);
            let text = self.generator.text(n);
            let (table, former) = (self.table_of(&text, 40), naive::table_of(Order::Unsigned, &text, 40));
            for _ in 0..50 {
                let table = self.generator.misruled(&table);
                self.compared(&Call::Check { table }, &lent);
                let table = self.generator.misruled(&former);
                self.compared(&Call::ToSigned { table }, &lent);
            }
        }
        self.tally
    }

    /// Building and checking in the profile: every drive of rest, two headings and the bytes at the bounds of the profile and of both orders up to 4 samples; every
    /// byte alone and between rests; and profile drives of other lengths, with drives and tables made from them.
    fn profiles(mut self) -> Tally {
        let small = (0..=4).flat_map(|n| every_text(&[0, 1, 8, 9, 127, 128, 255], n));
        for drive in small.chain((0..=255).flat_map(|byte| [vec![byte], vec![0, byte, 0]])) {
            self.in_profile(&drive);
        }
        for n in [2046, 2047, 2048, 3000] {
            for _ in 0..4 {
                self.profile(n);
            }
        }
        for _ in 0..1000 {
            let n = self.generator.below(61);
            self.profile(n);
        }
        for _ in 0..12 {
            let n = self.generator.below(2048);
            self.profile(n);
        }
        self.tally
    }

    /// A profile drive of n samples, and four drives made from it, most of which are none.
    fn profile(&mut self, n: usize) {
        let drive = self.generator.profile(n);
        self.in_profile(&drive);
        for _ in 0..4 {
            let other = self.generator.off_profile(&drive);
            self.in_profile(&other);
        }
    }

    /// A drive built in the profile; its table, and two made from it, checked there.
    fn in_profile(&mut self, drive: &[u8]) {
        let chair = self.generator.chair();
        self.compare(Call::BuildProfile { text: drive.to_vec(), chair });
        let table = self.table_of(&drive[..drive.len().min(2047)], chair);
        let (damaged, misruled) = (self.generator.damaged(&table), self.generator.misruled(&table));
        for table in [table, damaged, misruled] {
            self.compare(Call::CheckProfile { table });
        }
    }

    /// Censuses: of every text of the four samples at the ends of both orders up to 4 samples, for every q up to one more; of texts of one sample less than q, of q and
    /// of one more; of other texts for any q, and of tables made from theirs; of the longest texts with one run, the greatest among them, with 2,040, of which none
    /// stands twice, and with few.
    fn censuses(mut self) -> Tally {
        for text in (0..=4).flat_map(|n| every_text(&[0, 127, 128, 255], n)) {
            let table = self.table_of(&text, 40);
            for q in 0..=text.len() + 1 {
                self.compare_once(Call::Census { table: table.clone(), q });
            }
        }
        for (q, n) in (1..=8).flat_map(|q| [(q, q - 1), (q, q), (q, q + 1)]) {
            for _ in 0..4 {
                let text = self.generator.text(n);
                let table = self.table_of(&text, 40);
                self.census(&table, q);
            }
        }
        for _ in 0..400 {
            let n = self.generator.below(61);
            let (text, q) = (self.generator.text(n), self.generator.window());
            let table = self.table_of(&text, 40);
            self.census(&table, q);
            let (damaged, misruled) = (self.generator.damaged(&table), self.generator.misruled(&table));
            for table in [damaged, misruled, naive::table_of(Order::Unsigned, &text, 40)] {
                self.compare(Call::Census { table, q });
            }
        }
        for (text, q) in [(vec![127; 2047], 8), (vec![128; 2047], 1), (distinct_pairs(0, 2047), 8), (fibonacci(127, 128, 2047), 8)] {
            let table = self.table_of(&text, 40);
            self.census(&table, q);
        }
        for _ in 0..8 {
            let (text, q) = (self.generator.text(2047), 1 + self.generator.below(8));
            let table = self.table_of(&text, 40);
            self.compare(Call::Census { table, q });
        }
        self.tally
    }

    /// A census with slices that are long enough; with slices just as long as needed, and then each of them short by an entry; and with slices of any lengths.
    fn census(&mut self, table: &[u32], q: usize) {
        let call = Call::Census { table: table.to_vec(), q };
        let (outcome, _) = self.compared_with(&call, 16384, 16320, 2047);
        let runs = outcome.count as usize;
        let bytes = runs * q;
        self.compared_with(&call, 16384, bytes, runs);
        self.compared_with(&call, 16384, bytes.saturating_sub(1), runs);
        self.compared_with(&call, 16384, bytes, runs.saturating_sub(1));
        let (work, bytes, runs) = (self.generator.work_length(), self.generator.result_length(bytes), self.generator.result_length(runs));
        self.compared_with(&call, work, bytes, runs);
    }

    /// The census with slices of so many words for work, bytes for runs and words for counts.
    fn compared_with(&mut self, call: &Call, work: usize, runs: usize, counts: usize) -> (Outcome, Slices) {
        let g = &mut self.generator;
        let lent = Slices { work: g.words(work), words: g.words(counts), bytes: g.bytes(runs) };
        self.compared(call, &lent)
    }

    /// Every text of the samples 1 and -1 up to 7 samples, with every pattern up to 4, as samples and as steps, and every position, and listed cuts, Lyndon arrays and
    /// conversion up to 10; these also of the four samples at the ends of both orders, up to 5.
    fn every_small_text(&mut self) {
        let two = |n| every_text(&[1, 255], n);
        for text in (0..=7).flat_map(two) {
            let table = self.table_of(&text, 40);
            self.compare_once(Call::Read { table: table.clone() });
            for pattern in (1..=4).flat_map(two) {
                self.find(&table, 0, &pattern);
                let pattern = self.with_steps(&pattern);
                self.find(&table, STEPS, &pattern);
            }
            for position in 0..=text.len() {
                self.compare_once(Call::LyndonLength { table: table.clone(), position });
            }
        }
        let four = |n| every_text(&[0, 127, 128, 255], n);
        for text in (0..=10).flat_map(two).chain((0..=5).flat_map(four)) {
            let table = self.table_of(&text, 40);
            let former = naive::table_of(Order::Unsigned, &text, 40);
            self.compare_once(Call::LyndonArray { table: table.clone() });
            self.compare_once(Call::ToSigned { table: former.clone() });
            self.compare_once(Call::ToSigned { table });
            self.compare_once(Call::Check { table: former });
            self.compare_once(Call::Cuts { pattern: text });
        }
    }

    /// Every drive of the four samples at the ends of both orders up to 4 samples, rearranged, restored, and searched by steps with every pattern of them up to 3.
    fn every_small_drive(&mut self) {
        let four = |n| every_text(&[0, 127, 128, 255], n);
        for drive in (0..=4).flat_map(four) {
            self.compare_once(Call::ToSteps { text: drive.clone() });
            self.compare_once(Call::FromSteps { text: drive.clone() });
            let table = self.table_of(&naive::to_steps(&drive), 40);
            for pattern in (1..=3).flat_map(four) {
                self.find(&table, STEPS, &pattern);
            }
        }
    }

    /// A pattern counted and located.
    fn find(&mut self, table: &[u32], steps: u32, pattern: &[u8]) {
        let form = self.generator.form(steps);
        self.compare_once(Call::Count { table: table.to_vec(), form, pattern: pattern.to_vec() });
        self.compare_once(Call::Locate { table: table.to_vec(), form, pattern: pattern.to_vec() });
    }

    /// A pattern that has these steps, behind any first sample.
    fn with_steps(&mut self, steps: &[u8]) -> Vec<u8> {
        naive::from_steps(&[&[self.generator.sample()], steps].concat())
    }

    /// The cuts of every pattern of the samples 1 and -1 from 11 up to 14 samples; and of patterns of lengths around powers of two: equal samples, fronts that are
    /// ends, and copies of words with any first sample.
    fn powers(&mut self) {
        for pattern in (11..=14).flat_map(|n| every_text(&[1, 255], n)) {
            self.compare_once(Call::Cuts { pattern });
        }
        for n in [1, 2, 3, 4, 7, 8, 9, 1023, 1024, 1025, 2047] {
            self.power(vec![255; n]);
            self.power(nested(b'a', n));
            self.nested_in_parts(n);
            for _ in 0..12 {
                let mut pattern = self.generator.power(n);
                pattern[0] = self.generator.one_of(&[pattern[0], 128, 127]);
                self.power(pattern);
            }
        }
    }

    /// Ends of a pattern with many listed cuts, counted and located, as samples and as steps, in texts made of its parts: at a join some tails fit and others do not.
    fn nested_in_parts(&mut self, n: usize) {
        let pattern = nested(b'a', n);
        for _ in 0..8 {
            let mut text = Vec::new();
            while text.len() < 2 * n {
                let i = self.generator.below(n);
                let j = i + self.generator.below(n - i) + 1;
                text.extend(&pattern[i..j]);
            }
            text.truncate(2047);
            let table = self.table_of(&text, 40);
            let i = self.generator.below(n);
            self.compare_once(Call::Count { table: table.clone(), form: 0, pattern: pattern[i..].to_vec() });
            self.compare_once(Call::Locate { table: table.clone(), form: 0, pattern: pattern[i / 2..].to_vec() });
            let pattern = self.with_steps(&pattern[i..]);
            self.find(&table, STEPS, &pattern);
        }
    }

    /// The cuts of a pattern, and the pattern located in the drive that it is.
    fn power(&mut self, pattern: Vec<u8>) {
        let table = self.table_of(&pattern, 40);
        self.compare_once(Call::Locate { table, form: 0, pattern: pattern.clone() });
        self.compare(Call::Cuts { pattern });
    }

    /// Every service but the census, which takes as long as 256 searches, on the table of a text, and on tables made from it.
    fn text(&mut self, text: &[u8], searches: usize, damages: usize) {
        let chair = self.generator.chair();
        self.compare(Call::Build { text: text.to_vec(), chair });
        self.compare(Call::BuildProfile { text: text.to_vec(), chair });
        self.compare(Call::ToSteps { text: text.to_vec() });
        self.compare(Call::FromSteps { text: text.to_vec() });
        let text = &text[..text.len().min(2047)];
        let table = self.table_of(text, chair);
        self.compare(Call::Check { table: table.clone() });
        self.compare(Call::CheckProfile { table: table.clone() });
        self.compare(Call::Read { table: table.clone() });
        for _ in 0..searches {
            self.search(&table, text);
        }
        self.moved(text);
        self.conversion(&table, &naive::table_of(Order::Unsigned, text, chair), damages);
        for _ in 0..damages {
            let other = self.generator.damaged(&table);
            self.compare(Call::Check { table: other.clone() });
            match self.generator.once_in(3) {
                true => self.compare(Call::Read { table: other }),
                false => self.search(&other, text),
            }
        }
    }

    /// A part, a count and a list by samples and by steps, listed cuts, a Lyndon length and all of them.
    fn search(&mut self, table: &[u32], text: &[u8]) {
        let start = self.generator.bound(text.len());
        let length = self.generator.bound(text.len().saturating_sub(start));
        self.compare(Call::Extract { table: table.to_vec(), start, length });
        let (form, pattern) = (self.generator.form(STEPS), self.step_pattern(text));
        self.compare(Call::Count { table: table.to_vec(), form, pattern: pattern.clone() });
        self.compare(Call::Locate { table: table.to_vec(), form, pattern });
        let (form, pattern) = (self.generator.form(0), self.generator.pattern(text));
        self.compare(Call::Count { table: table.to_vec(), form, pattern: pattern.clone() });
        self.compare(Call::Locate { table: table.to_vec(), form, pattern: pattern.clone() });
        self.compare(Call::Cuts { pattern });
        let position = self.generator.bound(text.len());
        self.compare(Call::LyndonLength { table: table.to_vec(), position });
        self.compare(Call::LyndonArray { table: table.to_vec() });
    }

    /// A pattern to be searched by its steps in a text that is taken as steps: one for the drive, the same with a number added to every sample, or one that has as
    /// steps a pattern for the text, or the text's front, which stands where no step does.
    fn step_pattern(&mut self, text: &[u8]) -> Vec<u8> {
        let pattern = self.generator.pattern(&naive::from_steps(text));
        let front = text.len().min(1 + self.generator.below(6));
        match self.generator.below(4) {
            0 => pattern,
            1 => added(&pattern, self.generator.sample()),
            2 => {
                let steps = self.generator.pattern(text);
                self.with_steps(&steps)
            }
            _ => self.with_steps(&text[..front]),
        }
    }

    /// A pattern located by its steps in a drive, then again with a number added to every sample of the pattern, of the drive, and of both: at the same positions.
    fn moved(&mut self, drive: &[u8]) {
        let (pattern, number) = (self.generator.pattern(drive), self.generator.sample());
        let positions = self.located_by_steps(drive, &pattern);
        let (other_drive, other_pattern) = (added(drive, number), added(&pattern, number));
        for (drive, pattern) in [(drive, &other_pattern), (&other_drive, &pattern), (&other_drive, &other_pattern)] {
            assert_eq!(self.located_by_steps(drive, pattern), positions, "{pattern:?} in {drive:?}");
        }
    }

    fn located_by_steps(&mut self, drive: &[u8], pattern: &[u8]) -> Vec<u32> {
        let table = self.table_of(&naive::to_steps(drive), 40);
        let call = Call::Locate { table, form: self.generator.form(STEPS), pattern: pattern.to_vec() };
        let lent = self.lent(&call, 16384, 2047);
        let (outcome, left) = self.compared(&call, &lent);
        left.words[..outcome.count as usize].to_vec()
    }

    /// The table of a text in the former order converted; that in the signed order converted and the former one checked, both refused unless they are the same;
    /// tables made from the former one converted.
    fn conversion(&mut self, table: &[u32], former: &[u32], damages: usize) {
        self.compare(Call::ToSigned { table: former.to_vec() });
        self.compare(Call::ToSigned { table: table.to_vec() });
        self.compare(Call::Check { table: former.to_vec() });
        for _ in 0..damages {
            let table = self.generator.damaged(former);
            self.compare(Call::ToSigned { table });
        }
    }

    /// The table of a text as the library builds it, which is compared too.
    fn table_of(&mut self, text: &[u8], chair: u16) -> Vec<u32> {
        let call = Call::Build { text: text.to_vec(), chair };
        let lent = self.lent(&call, 16384, 4608);
        let (outcome, mut left) = self.compared(&call, &lent);
        left.words.truncate(outcome.count as usize);
        left.words
    }

    /// The call on slices that are long enough, then on slices of other lengths.
    fn compare(&mut self, call: Call) {
        let lent = self.lent(&call, 16384, 4608);
        let (outcome, _) = self.compared(&call, &lent);
        let (work, result) = (self.generator.work_length(), self.generator.result_length(outcome.count as usize));
        let lent = self.lent(&call, work, result);
        self.compared(&call, &lent);
    }

    fn compare_once(&mut self, call: Call) {
        let lent = self.lent(&call, 16384, 26);
        self.compared(&call, &lent);
    }

    /// Slices of these lengths for a call, with any content; both result slices of a census have the same.
    fn lent(&mut self, call: &Call, work: usize, result: usize) -> Slices {
        let g = &mut self.generator;
        match call {
            Call::Build { .. } | Call::BuildProfile { .. } | Call::Locate { .. } | Call::LyndonArray { .. } | Call::ToSigned { .. } => {
                Slices { work: g.words(work), words: g.words(result), bytes: vec![] }
            }
            Call::Read { .. } | Call::Extract { .. } => Slices { work: g.words(work), words: vec![], bytes: g.bytes(result) },
            Call::ToSteps { .. } | Call::FromSteps { .. } => Slices { work: vec![], words: vec![], bytes: g.bytes(result) },
            Call::Check { .. } | Call::CheckProfile { .. } | Call::Count { .. } | Call::LyndonLength { .. } => {
                Slices { work: g.words(work), words: vec![], bytes: vec![] }
            }
            Call::Cuts { .. } => Slices { work: vec![], words: g.words(result), bytes: vec![] },
            Call::Census { .. } => Slices { work: g.words(work), words: g.words(result), bytes: g.bytes(result) },
        }
    }

    /// What the library answers and leaves, which is what the naive implementation does.
    fn compared(&mut self, call: &Call, lent: &Slices) -> (Outcome, Slices) {
        let null = self.generator.once_in(2);
        let got = lending::serve(call, lent, null);
        let want = self.naive.answer(call, lent);
        let wrong = match &got {
            Ok(got) => {
                let wrong = difference(got, &want).or_else(|| broken_bound(call, got));
                wrong.or_else(|| self.too_many_tests(call, got.0)).or_else(|| self.other_total(call, got))
            }
            Err(wrong) => Some(wrong.clone()),
        };
        if let Some(wrong) = wrong {
            let (work, words, bytes) = (lent.work.len(), lent.words.len(), lent.bytes.len());
            println!("comparison: {wrong}\n{call:?}\nwork {work} words, result {words} words, {bytes} bytes, null {null}");
            std::process::exit(1);
        }
        self.tally.add(call, &want.0);
        want
    }

    /// Which bound a search breaks: for m samples or steps among n it makes more than n + 2 - m tests, none where that would be negative.
    fn too_many_tests(&mut self, call: &Call, outcome: Outcome) -> Option<String> {
        let (Call::Count { pattern, .. } | Call::Locate { pattern, .. }) = call else { return None };
        if outcome.number != 0 {
            return None;
        }
        let m = if call.by_steps() { pattern.len() - 1 } else { pattern.len() };
        let most = (self.naive.samples(call) + 2).saturating_sub(m);
        (outcome.tests > most as u64).then(|| format!("{} tests, where {most} are the most", outcome.tests))
    }

    /// What the counts of a census add up to, where that isn't the number of positions from which q samples follow in the drive.
    fn other_total(&mut self, call: &Call, (outcome, left): &(Outcome, Slices)) -> Option<String> {
        let Call::Census { q, .. } = call else { return None };
        if outcome.number != 0 {
            return None;
        }
        let total = left.words[..outcome.count as usize].iter().map(|&count| count as usize).sum::<usize>();
        let positions = (self.naive.samples(call) + 1).saturating_sub(*q);
        (total != positions).then(|| format!("the counts add up to {total}, not to {positions}"))
    }
}

/// Which bound a list of cuts breaks: it has more than 1 + k entries, where 2^k is at most the pattern's length, or a tail that is not at least twice as long as
/// the next one.
fn broken_bound(call: &Call, (outcome, left): &(Outcome, Slices)) -> Option<String> {
    let Call::Cuts { pattern } = call else { return None };
    let tails: Vec<usize> = left.words[..outcome.count as usize].iter().map(|&cut| pattern.len() - cut as usize).collect();
    let many = outcome.number == 0 && tails.len() > 1 + pattern.len().ilog2() as usize;
    let near = tails.windows(2).any(|pair| pair[0] < 2 * pair[1]);
    (many || near).then(|| format!("tails of {tails:?} samples"))
}

/// The samples, each with a number added, modulo 256.
fn added(samples: &[u8], number: u8) -> Vec<u8> {
    samples.iter().map(|sample| sample.wrapping_add(number)).collect()
}

/// Every text of n samples of these values.
fn every_text(values: &[u8], n: usize) -> Vec<Vec<u8>> {
    if n == 0 {
        return vec![vec![]];
    }
    every_text(values, n - 1).iter().flat_map(|front| values.iter().map(move |&last| [&front[..], &[last]].concat())).collect()
}
