//! The two editions of a table: the second one of a first, the bad words of a second, and whether a table is the second edition of some drive and chair number.

use super::order::Order;
use super::tables::{bad_first, bad_second, chair_in, drive_of_symbols, parts, table_of};
use std::collections::HashMap;

#[derive(Clone, Copy, PartialEq)]
pub enum Edition {
    First,
    Second,
}

impl Edition {
    pub fn words_a_rule(self) -> usize {
        match self {
            Edition::First => 2,
            Edition::Second => 3,
        }
    }

    /// The most words of a table, of 2,304 rules.
    pub fn most_words(self) -> usize {
        2304 * self.words_a_rule()
    }
}

/// A rule of a first-edition table: a symbol with its two words, or a pair of rules.
#[derive(Clone, Copy)]
enum Rule {
    Symbol([u32; 2]),
    Pair(usize, usize),
}

/// The second edition of a first-edition table that is accepted.
pub fn second_edition(table: &[u32]) -> Vec<u32> {
    let rules: Vec<Rule> = table.chunks(2).map(rule_of).collect();
    let strings = strings(&rules);
    let spelled: HashMap<&[u32], usize> = strings.iter().enumerate().map(|(r, string)| (&string[..], r)).collect();
    let kept: Vec<usize> = (0..rules.len()).filter(|&r| is_kept(&rules, r)).collect();
    let renumbered = |r| kept.iter().position(|&q| q == r).expect("a half that is kept") as u32;
    let words = |&r: &usize| match rules[r] {
        Rule::Symbol([first, second]) => [first, second, 3 << 30],
        Rule::Pair(_, right) => {
            let (left, copies) = without_copies(&strings[r], &strings[right]);
            [1 << 30 | renumbered(spelled[left]), 2 << 30 | renumbered(right), 3 << 30 | copies]
        }
    };
    kept.iter().flat_map(words).collect()
}

fn rule_of(words: &[u32]) -> Rule {
    match parts(words[0]) {
        (0, _) => Rule::Symbol([words[0], words[1]]),
        (_, left) => Rule::Pair(left as usize, parts(words[1]).1 as usize),
    }
}

/// The string of each rule, as numbers of symbols.
fn strings(rules: &[Rule]) -> Vec<Vec<u32>> {
    rules.iter().fold(Vec::new(), |mut strings, rule| {
        strings.push(match *rule {
            Rule::Symbol([number, _]) => vec![number],
            Rule::Pair(left, right) => [&strings[left][..], &strings[right]].concat(),
        });
        strings
    })
}

/// A symbol, the root, a right half, or a left half of a rule whose right half isn't its own.
fn is_kept(rules: &[Rule], r: usize) -> bool {
    let Rule::Pair(_, own) = rules[r] else { return true };
    let keeps = |rule: &Rule| match *rule {
        Rule::Symbol(_) => false,
        Rule::Pair(left, right) => right == r || (left == r && right != own),
    };
    r + 1 == rules.len() || rules.iter().any(keeps)
}

/// What is left of a string, and not empty, once as many copies as possible are taken off its end, and how many these are.
fn without_copies<'a>(string: &'a [u32], copy: &[u32]) -> (&'a [u32], u32) {
    let (mut left, mut copies) = (string, 0);
    while let Some(rest) = left.strip_suffix(copy).filter(|rest| !rest.is_empty()) {
        (left, copies) = (rest, copies + 1);
    }
    (left, copies)
}

/// Whether word i of a second-edition table is bad; asked only where no word before it is.
pub fn is_bad_in_second(table: &[u32], i: usize) -> bool {
    let (rule, first) = (i as u32 / 3, table[i - i % 3]);
    match i % 3 {
        0 => bad_first(rule, first),
        1 => bad_second(rule, first, table[i]),
        _ => {
            let ((kind, number), pair) = (parts(table[i]), parts(first).0 == 1);
            kind != 3 || (pair && number == 0) || (!pair && number > 0)
        }
    }
}

/// The drive and chair number of a second-edition table without a bad word, if there are any.
pub fn drive_of_second(order: Order, table: &[u32]) -> Option<(Vec<u8>, u16)> {
    let mut symbols = Vec::new();
    spell(table, table.len() / 3 - 1, &mut symbols);
    let (text, chair) = (drive_of_symbols(&symbols)?, chair_in(table));
    (second_edition(&table_of(order, &text, chair)) == table).then_some((text, chair))
}

/// Adds the string of a rule, its left half and then the copies of its right half, and stops once there are more symbols than a marked drive has.
fn spell(table: &[u32], rule: usize, symbols: &mut Vec<u32>) {
    let words = [0, 1, 2].map(|i| parts(table[3 * rule + i]));
    if let [(0, number), ..] = words {
        return symbols.push(number);
    }
    let halves = std::iter::once(words[0].1).chain((0..words[2].1).map(|_| words[1].1));
    for half in halves {
        if symbols.len() > 2048 {
            return;
        }
        spell(table, half as usize, symbols);
    }
}
