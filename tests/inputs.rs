//! Generated texts, patterns, numbers and slice lengths, by a fixed seed: the same in every run.

pub struct Generator {
    state: u64,
    pool: Vec<u32>,
}

impl Generator {
    pub fn new(seed: u64) -> Self {
        let mut generator = Generator { state: seed, pool: Vec::new() };
        generator.pool = (0..1 << 16).map(|_| generator.next() as u32).collect();
        generator
    }

    /// Xorshift.
    pub fn next(&mut self) -> u64 {
        self.state ^= self.state << 13;
        self.state ^= self.state >> 7;
        self.state ^= self.state << 17;
        self.state
    }

    pub fn below(&mut self, n: usize) -> usize {
        (self.next() >> 11) as usize % n.max(1)
    }

    pub fn one_of<T: Clone>(&mut self, choices: &[T]) -> T {
        choices[self.below(choices.len())].clone()
    }

    /// True once in n times.
    pub fn once_in(&mut self, n: usize) -> bool {
        self.below(n) == 0
    }

    /// So many words of any content.
    pub fn words(&mut self, n: usize) -> Vec<u32> {
        let start = self.below(self.pool.len() - n + 1);
        self.pool[start..start + n].to_vec()
    }

    pub fn bytes(&mut self, n: usize) -> Vec<u8> {
        self.words(n).iter().map(|&word| word as u8).collect()
    }

    /// A form with this bit 0, which says steps or samples, and other bits, which are not looked at.
    pub fn form(&mut self, steps: u32) -> u32 {
        let any = self.next() as u32;
        self.one_of(&[0, 0, 2, 1 << 31, 0xFFFF_FFFE, any & 0xFFFF_FFFE]) | steps
    }

    pub fn chair(&mut self) -> u16 {
        let any = self.next() as u16;
        self.one_of(&[0, 1, 40, 65535, any])
    }

    /// A text of n samples.
    pub fn text(&mut self, n: usize) -> Vec<u8> {
        let (low, high) = (self.sample(), self.sample());
        match self.below(9) {
            0 => self.bytes(n),
            1 | 2 => self.of_few(n),
            3 => self.periodic(n),
            4 => self.runs(n),
            5 => vec![low; n],
            6 => fibonacci(low, high, n),
            7 => self.changed(&vec![low; n]),
            _ => distinct_pairs(low, n),
        }
    }

    /// A sample, often one at an end of the signed or the unsigned order.
    pub fn sample(&mut self) -> u8 {
        let any = self.next() as u8;
        self.one_of(&[0, 127, 128, 255, b'a', b'b', any])
    }

    /// Samples of two to four values.
    fn of_few(&mut self, n: usize) -> Vec<u8> {
        let values: Vec<u8> = (0..2 + self.below(3)).map(|_| self.sample()).collect();
        (0..n).map(|_| self.one_of(&values)).collect()
    }

    /// Copies of a word, at times with one sample changed.
    fn periodic(&mut self, n: usize) -> Vec<u8> {
        let power = self.power(n);
        match self.once_in(2) {
            true => self.changed(&power),
            false => power,
        }
    }

    /// Copies of a word: whole ones up to the end, or whole ones from the start and a front of one more.
    pub fn power(&mut self, n: usize) -> Vec<u8> {
        let short = 1 + self.below(9);
        let length = self.one_of(&[short, short, short, n / 4, n / 3, n / 2]).max(1);
        let copies = self.of_few(length).repeat(n / length + 1);
        let start = self.one_of(&[0, copies.len() - n]);
        copies[start..start + n].to_vec()
    }

    fn runs(&mut self, n: usize) -> Vec<u8> {
        let mut text = Vec::new();
        while text.len() < n {
            let run = 1 + self.below(1 + n / 4);
            let sample = self.sample();
            text.resize((text.len() + run).min(n), sample);
        }
        text
    }

    /// The samples with one of them changed.
    pub fn changed(&mut self, samples: &[u8]) -> Vec<u8> {
        let mut other = samples.to_vec();
        if !other.is_empty() {
            let i = self.below(other.len());
            other[i] = self.sample();
        }
        other
    }

    /// A profile drive of n samples: rest and headings, the ends at rest. Of no sample, the empty drive, which is none.
    pub fn profile(&mut self, n: usize) -> Vec<u8> {
        let mut drive: Vec<u8> = self.text(n).iter().map(|sample| sample % 9).collect();
        if let [first, ..] = &mut drive[..] {
            *first = 0;
        }
        if let [.., last] = &mut drive[..] {
            *last = 0;
        }
        drive
    }

    /// The samples with up to three of them changed, often at or beside an end, and often to a byte at a bound of the profile or of an order.
    pub fn off_profile(&mut self, samples: &[u8]) -> Vec<u8> {
        let (mut other, n) = (samples.to_vec(), samples.len());
        for _ in 0..1 + self.below(3) {
            let (place, byte) = (self.below(n), self.next() as u8);
            let i = self.one_of(&[0, 1, n / 2, n.wrapping_sub(2), n.wrapping_sub(1), place]);
            let byte = self.one_of(&[0, 1, 8, 9, 9, 127, 128, 255, byte]);
            if let Some(sample) = other.get_mut(i) {
                *sample = byte;
            }
        }
        other
    }

    /// A pattern for a text: cut from it, cut and changed, of its values, longer than it, at a limit, or another text.
    pub fn pattern(&mut self, text: &[u8]) -> Vec<u8> {
        let short = 1 + self.below(6);
        match self.below(16) {
            0..=4 => self.part(text, short),
            5 | 6 => self.part(text, text.len()),
            7 => {
                let part = self.part(text, 12);
                self.changed(&part)
            }
            8 if !text.is_empty() => (0..short).map(|_| self.one_of(text)).collect(),
            9 => [text, &self.bytes(short)].concat(),
            10 => text.to_vec(),
            11 => self.of_few(short),
            12 => self.text(short * 8),
            13 => self.limit(text),
            _ => self.part(text, 1),
        }
    }

    /// At most so many samples of the text, one after the other.
    fn part(&mut self, text: &[u8], most: usize) -> Vec<u8> {
        let length = (1 + self.below(most)).min(text.len());
        let start = self.below(text.len() - length + 1);
        text[start..start + length].to_vec()
    }

    /// A pattern of 0, 1, 2,047, 2,048 or more samples, the text again and again.
    fn limit(&mut self, text: &[u8]) -> Vec<u8> {
        let length = self.one_of(&[0, 1, 2047, 2048, 3000]);
        let samples = if text.is_empty() { &[0][..] } else { text };
        samples.iter().copied().cycle().take(length).collect()
    }

    /// A start in a text of n samples, or a length where n are left.
    pub fn bound(&mut self, n: usize) -> usize {
        let within = self.below(n + 1);
        let edge = self.one_of(&[0, 1, n.wrapping_sub(1), n, n + 1, 1 << 31, 1 << 32, 1 << 63, usize::MAX]);
        self.one_of(&[within, within, edge])
    }

    /// How many samples the runs of a census are to have: 1 to 8, or a number that is refused, at times 1 to 8 with a higher bit set.
    pub fn window(&mut self) -> usize {
        let within = 1 + self.below(8);
        let outside = self.one_of(&[0, 9, 10, 255, 1 << 8 | within, 1 << 16 | within, 1 << 32 | within, 1 << 63 | within, usize::MAX]);
        self.one_of(&[within, within, within, outside])
    }

    pub fn work_length(&mut self) -> usize {
        let short = self.below(16384);
        let long = 16384 + self.below(100);
        match self.once_in(8) {
            true => self.one_of(&[0, 1, 16383, short]),
            false => self.one_of(&[16384, 16384, 16384, 16385, long]),
        }
    }

    /// The length of a result slice of which so many entries are needed.
    pub fn result_length(&mut self, needed: usize) -> usize {
        let (less, more) = (self.below(needed), needed + self.below(20));
        self.one_of(&[0, needed.saturating_sub(1), needed, needed, needed + 1, less, more])
    }
}

pub fn fibonacci(low: u8, high: u8, n: usize) -> Vec<u8> {
    let (mut word, mut next) = (vec![low], vec![low, high]);
    while word.len() < n {
        (word, next) = (next.clone(), [next, word].concat());
    }
    word.truncate(n);
    word
}

/// The last n samples of w z w, where w is the same again with a smaller z: its front is its end too, and so on. From 1,536 samples on it has 11 listed cuts, the
/// most.
pub fn nested(low: u8, n: usize) -> Vec<u8> {
    let (mut word, mut z) = (vec![low; 2], low);
    while word.len() < n {
        z += 1;
        word = [&word[..], &[z], &word[..]].concat();
    }
    word.split_off(word.len() - n)
}

/// No two neighbouring samples stand a second time: with 2,047 samples a table has 2,304 rules, the most.
pub fn distinct_pairs(first: u8, n: usize) -> Vec<u8> {
    let steps = (0..n).map(|i| 2 * (i / 256) as u8 + 1);
    steps.scan(first, |sample, step| Some(std::mem::replace(sample, sample.wrapping_add(step)))).collect()
}
