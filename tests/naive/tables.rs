//! The table of a drive and chair number in an order of samples, the bad words of a table, whether a table is that of some drive and chair number, and the
//! lengths of its pair rules' halves.

use super::order::Order;
use super::words::Common;
use std::collections::HashMap;

/// The mark, smaller than what any sample means in any order.
const MARK: i16 = i16::MIN;

/// The words of the table of a drive and a chair number.
pub fn table_of(order: Order, text: &[u8], chair: u16) -> Vec<u32> {
    let marked = [vec![MARK], order.values(text)].concat();
    let mut numbering = Numbering { common: Common::new(&marked), marked: &marked, rules: HashMap::new(), words: Vec::new() };
    numbering.meet(0, marked.len());
    let mut words = numbering.words;
    words[1] = 3 << 30 | chair as u32;
    words
}

/// The strings met so far, each with its rule, and the words of these rules.
struct Numbering<'a> {
    marked: &'a [i16],
    common: Common<'a, i16>,
    rules: HashMap<&'a [i16], u32>,
    words: Vec<u32>,
}

impl Numbering<'_> {
    /// Meets the node from `start` to `end` after its left part and then its right part, and answers its rule.
    fn meet(&mut self, start: usize, end: usize) -> u32 {
        let string = &self.marked[start..end];
        let words = match string {
            [MARK] => [0, 3 << 30],
            [value] => [*value as u8 as u32 + 1, 3 << 30], // a value and its byte differ by 0 or 256
            _ => {
                let middle = self.common.split(start, end);
                [1 << 30 | self.meet(start, middle), 2 << 30 | self.meet(middle, end)]
            }
        };
        let next = self.words.len() as u32 / 2;
        let rule = *self.rules.entry(string).or_insert(next);
        if rule == next {
            self.words.extend(words);
        }
        rule
    }
}

/// Whether word i of a table is bad; asked only where no word before it is.
fn is_bad(table: &[u32], i: usize) -> bool {
    let rule = (i / 2) as u32;
    let (kind, number) = parts(table[i]);
    if i % 2 == 0 {
        let symbol = kind == 0 && number <= 256;
        let left = kind == 1 && number < rule;
        return !symbol && !left;
    }
    match parts(table[i - 1]).0 {
        1 => !(kind == 2 && number < rule),
        _ => kind != 3 || number > if i == 1 { 65535 } else { 0 },
    }
}

/// A word's kind and number.
fn parts(word: u32) -> (u32, u32) {
    (word / (1 << 30), word % (1 << 30))
}

/// The lowest index of a bad word.
pub fn bad_word(table: &[u32]) -> Option<usize> {
    (0..table.len()).find(|&i| is_bad(table, i))
}

/// The drive and chair number of a table without a bad word, if there are any.
pub fn drive_of(order: Order, table: &[u32]) -> Option<(Vec<u8>, u16)> {
    let mut symbols = Vec::new();
    spell(table, table.len() / 2 - 1, &mut symbols);
    let samples = symbols.strip_prefix(&[0])?;
    let text: Vec<u8> = samples.iter().map(|&symbol| symbol.checked_sub(1).map(|sample| sample as u8)).collect::<Option<_>>()?;
    let chair = parts(table[1]).1 as u16;
    (text.len() <= 2047 && table_of(order, &text, chair) == table).then_some((text, chair))
}

/// How many symbols the left half and the right half of each pair rule have, of a table that is accepted; the mark is one.
pub fn halves(table: &[u32]) -> Vec<(usize, usize)> {
    let mut lengths: Vec<usize> = Vec::new();
    let mut halves = Vec::new();
    for words in table.chunks(2) {
        let [(kind, left), (_, right)] = [parts(words[0]), parts(words[1])];
        if kind == 0 {
            lengths.push(1);
        } else {
            let (left, right) = (lengths[left as usize], lengths[right as usize]);
            lengths.push(left + right);
            halves.push((left, right));
        }
    }
    halves
}

/// Adds the string of a rule, and stops once there are more symbols than a marked drive has.
fn spell(table: &[u32], rule: usize, symbols: &mut Vec<u32>) {
    if symbols.len() > 2048 {
        return;
    }
    let (kind, number) = parts(table[2 * rule]);
    if kind == 0 {
        symbols.push(number);
    } else {
        spell(table, number as usize, symbols);
        spell(table, parts(table[2 * rule + 1]).1 as usize, symbols);
    }
}
