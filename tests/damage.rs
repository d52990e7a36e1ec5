//! Tables that are damaged, exchanged, prolonged, cut short or made up.

use crate::inputs::Generator;

const KIND: u32 = 1 << 30;

impl Generator {
    /// Another table, made from one that is accepted. Some are accepted too: those with another chair number.
    pub fn damaged(&mut self, table: &[u32]) -> Vec<u32> {
        let mut other = table.to_vec();
        match self.below(15) {
            0..=2 => self.damage_word(&mut other),
            3 => self.exchange_rules(&mut other),
            4 => self.reorder_rules(&mut other),
            5 => {
                let rule = self.rule(table.len() / 2);
                other.extend(rule);
            }
            6 => {
                let again = 2 * self.below(table.len() / 2);
                other.extend_from_within(again..again + 2);
            }
            7 => other.truncate(self.below(table.len())),
            8 => other.truncate(2 * self.below(table.len() / 2)),
            9 => self.exchange_halves(&mut other),
            10 => other = self.well_shaped(),
            11 => other = self.doubling(),
            12 => {
                let n = self.one_of(&[0, 1, 2, 3, 6, 4607, 4608, 4609, 4610, 6000]);
                other = self.words(n);
            }
            13 => {
                let n = self.one_of(&[4606, 4608, 4610]);
                while other.len() < n {
                    let rule = self.rule(other.len() / 2);
                    other.extend(rule);
                }
            }
            _ => other[1] = 3 * KIND | self.chair() as u32,
        }
        other
    }

    /// Another table, made from one that is accepted by up to three changes of its rules: a half, a symbol or both halves exchanged, neighbours exchanged, a rule
    /// put in that nothing uses or that stands twice. Most have no bad word.
    pub fn misruled(&mut self, table: &[u32]) -> Vec<u32> {
        loop {
            let other = self.changed_rules(table);
            if other != table {
                return other;
            }
        }
    }

    /// The same, but for changes that change nothing.
    fn changed_rules(&mut self, table: &[u32]) -> Vec<u32> {
        let mut other = table.to_vec();
        for _ in 0..1 + self.below(3) {
            let r = self.below(other.len() / 2);
            let pair = other[2 * r] / KIND == 1;
            match self.below(6) {
                0 | 1 if pair => {
                    let (i, half) = (2 * r + self.below(2), self.below(r) as u32);
                    other[i] = other[i] / KIND * KIND | half;
                }
                2 => self.exchange_halves(&mut other),
                3 => self.reorder_rules(&mut other),
                4 => {
                    let any = self.rule(r);
                    let again = [other[2 * r], other[2 * r + 1]];
                    let rule = self.one_of(&[any, again]);
                    put_in(&mut other, r + 1, rule);
                }
                _ if !pair && 0 < r => other[2 * r] = self.one_of(&[0, 1, 98, 99, 128, 129, 256]),
                _ => {}
            }
        }
        other
    }

    /// One word with a bit, the kind or the number changed, or another word for it.
    fn damage_word(&mut self, table: &mut [u32]) {
        let i = self.below(table.len());
        let word = table[i];
        let bit = self.below(32);
        let kind = self.below(4) as u32;
        let any = self.next() as u32;
        let near = self.below(i / 2 + 2) as u32;
        let number = self.one_of(&[0, 1, near, 256, 257, 65535, 65536, KIND - 1]);
        table[i] = self.one_of(&[word ^ 1 << bit, kind * KIND | word % KIND, word / KIND * KIND | number, word.wrapping_add(1), any]);
    }

    /// Two rules exchanged, and those that name them left as they were.
    fn exchange_rules(&mut self, table: &mut [u32]) {
        let (r, s) = (self.below(table.len() / 2), self.below(table.len() / 2));
        table.swap(2 * r, 2 * s);
        table.swap(2 * r + 1, 2 * s + 1);
    }

    /// Two neighbouring rules exchanged, and the names of both too: the same strings in another order.
    fn reorder_rules(&mut self, table: &mut [u32]) {
        if table.len() < 4 {
            return;
        }
        let r = self.below(table.len() / 2 - 1);
        rename(table, r as u32);
        table.swap(2 * r, 2 * r + 2);
        table.swap(2 * r + 1, 2 * r + 3);
    }

    /// The halves of one pair rule exchanged.
    fn exchange_halves(&mut self, table: &mut [u32]) {
        let r = self.below(table.len() / 2);
        if table[2 * r] / KIND == 1 {
            let (left, right) = (table[2 * r] % KIND, table[2 * r + 1] % KIND);
            (table[2 * r], table[2 * r + 1]) = (KIND | right, 2 * KIND | left);
        }
    }

    /// The two words of some rule r, none of them bad.
    fn rule(&mut self, r: usize) -> [u32; 2] {
        match r == 0 || self.once_in(4) {
            true => [self.one_of(&[0, 1, 98, 99, 128, 129, 256]), 3 * KIND],
            false => [KIND | self.below(r) as u32, 2 * KIND | self.below(r) as u32],
        }
    }

    /// Some rules without a bad word, the mark first.
    fn well_shaped(&mut self) -> Vec<u32> {
        let mut table = vec![0, 3 * KIND | self.chair() as u32];
        for r in 1..2 + self.below(8) {
            table.extend(self.rule(r));
        }
        table
    }

    /// Rules of which each is twice the one before, and at times a root with the mark.
    fn doubling(&mut self) -> Vec<u32> {
        let rules = self.one_of(&[3, 9, 11, 12, 13, 14, 40, 70, 2000, 2303]) as u32;
        let mut table = vec![0, 3 * KIND, 98, 3 * KIND];
        (2..rules).for_each(|r| table.extend([KIND | (r - 1), 2 * KIND | (r - 1)]));
        if self.once_in(2) {
            table.extend([KIND, 2 * KIND | (rules - 1)]);
        }
        table
    }
}

/// Puts a rule in as rule r; those from there on are renumbered.
fn put_in(table: &mut Vec<u32>, r: usize, rule: [u32; 2]) {
    for word in table.iter_mut() {
        if (*word / KIND == 1 || *word / KIND == 2) && r <= (*word % KIND) as usize {
            *word += 1;
        }
    }
    table.splice(2 * r..2 * r, rule);
}

/// Every table of so many rules without a bad word, over the mark and the samples 1 and -1, with chair number 0.
pub fn every_table(rules: usize) -> Vec<Vec<u32>> {
    if rules == 0 {
        return vec![vec![]];
    }
    let r = rules as u32 - 1;
    let symbols = [0, 2, 256].map(|symbol| [symbol, 3 * KIND]);
    let pairs = (0..r).flat_map(|left| (0..r).map(move |right| [KIND | left, 2 * KIND | right]));
    let last: Vec<[u32; 2]> = symbols.into_iter().chain(pairs).collect();
    every_table(rules - 1).iter().flat_map(|front| last.iter().map(move |rule| [&front[..], rule].concat())).collect()
}

/// Every name of rule r becomes one of rule r + 1, and the other way round.
fn rename(table: &mut [u32], r: u32) {
    for word in table.iter_mut().filter(|word| matches!(**word / KIND, 1 | 2)) {
        match *word % KIND {
            number if number == r => *word += 1,
            number if number == r + 1 => *word -= 1,
            _ => {}
        }
    }
}
