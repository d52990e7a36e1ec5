//! Strings: which is smaller, Lyndon words, the longest of them from a position, the standard factorization, live cuts, those that are listed, and
//! occurrences.

use std::cmp::Ordering;
use std::fmt::Debug;

/// The longest string for which the wording itself is followed.
const SHORT: usize = 64;

/// Strings compare at their first different symbol; a proper prefix is smaller than the longer string.
pub fn smaller<T: Ord>(x: &[T], y: &[T]) -> bool {
    match first_difference(x, y) {
        Some(order) => order == Ordering::Less,
        None => x.len() < y.len(),
    }
}

fn first_difference<T: Ord>(x: &[T], y: &[T]) -> Option<Ordering> {
    x.iter().zip(y).map(|(a, b)| a.cmp(b)).find(|&order| order != Ordering::Equal)
}

/// Not empty, and smaller than each of its proper suffixes but the empty one.
pub fn is_lyndon<T: Ord>(w: &[T]) -> bool {
    !w.is_empty() && (1..w.len()).all(|i| smaller(w, &w[i..]))
}

/// The greatest k for which the first k symbols are a Lyndon word.
fn longest_by_wording<T: Ord>(w: &[T]) -> usize {
    (1..=w.len()).rev().find(|&k| is_lyndon(&w[..k])).unwrap()
}

/// The length of the longest Lyndon word that begins at each position of a string.
pub fn lyndon_array<T: Ord>(s: &[T]) -> Vec<usize> {
    let common = Common::new(s);
    (0..s.len()).map(|i| common.longest(i)).collect()
}

/// Where the longest proper suffix that is a Lyndon word begins.
fn split_by_wording<T: Ord>(w: &[T]) -> usize {
    (1..w.len()).find(|&k| is_lyndon(&w[k..])).unwrap()
}

/// One of the two tails is a prefix of the other, or the first is smaller at their first difference.
fn passes<T: Ord>(tail: &[T], other: &[T]) -> bool {
    !matches!(first_difference(tail, other), Some(Ordering::Greater))
}

fn is_live<T: Ord>(p: &[T], c: usize) -> bool {
    (1..p.len()).filter(|&d| d != c).all(|d| passes(&p[c..], &p[d..]))
}

/// The stretch from d to c is a Lyndon word, c's tail begins with that word, and the tail is longer than the word.
fn drops<T: Ord>(p: &[T], d: usize, c: usize) -> bool {
    let (word, tail) = (&p[d..c], &p[c..]);
    is_lyndon(word) && tail.starts_with(word) && tail.len() > word.len()
}

/// The live cuts, but for those that some earlier cut, 1 or later, drops.
fn cuts_by_wording<T: Ord>(p: &[T]) -> Vec<usize> {
    (1..p.len()).filter(|&c| is_live(p, c)).filter(|&c| !(1..c).any(|d| drops(p, d, c))).collect()
}

/// The listed cuts of a pattern, rising.
pub fn listed_cuts<T: Ord + Debug>(p: &[T]) -> Vec<usize> {
    if p.len() > SHORT {
        return Common::new(p).listed_cuts();
    }
    let cuts = cuts_by_wording(p);
    assert_eq!(cuts, Common::new(p).listed_cuts(), "listed cuts of {p:?}");
    cuts
}

/// The positions at which a pattern begins in a text, rising.
pub fn occurrences(pattern: &[u8], text: &[u8]) -> Vec<usize> {
    let m = pattern.len();
    (0..text.len()).filter(|&p| p + m <= text.len() && (0..m).all(|k| text[p + k] == pattern[k])).collect()
}

/// A string, and for any two places how many symbols agree from there on.
pub struct Common<'a, T> {
    string: &'a [T],
    agree: Vec<u16>,
}

impl<'a, T: Ord> Common<'a, T> {
    pub fn new(string: &'a [T]) -> Self {
        let n = string.len();
        let mut agree = vec![0; (n + 1) * (n + 1)];
        for i in (0..n).rev() {
            for j in (0..n).rev() {
                if string[i] == string[j] {
                    agree[i * (n + 1) + j] = agree[(i + 1) * (n + 1) + j + 1] + 1;
                }
            }
        }
        Common { string, agree }
    }

    /// How many symbols agree from i and from j on.
    fn agreeing(&self, i: usize, j: usize) -> usize {
        self.agree[i * (self.string.len() + 1) + j] as usize
    }

    /// How the strings from i and from j, both up to `end`, compare at their first difference.
    fn first_difference(&self, i: usize, j: usize, end: usize) -> Option<Ordering> {
        let k = self.agreeing(i, j);
        match i.max(j) + k < end {
            true => Some(self.string[i + k].cmp(&self.string[j + k])),
            false => None,
        }
    }

    /// Where the standard factorization splits the Lyndon word from `start` to `end`: v is also its smallest proper suffix.
    pub fn split(&self, start: usize, end: usize) -> usize {
        let below = |i, j| self.first_difference(i, j, end).map_or(i > j, |order| order == Ordering::Less);
        let least = (start + 1..end).fold(end - 1, |least, i| if below(i, least) { i } else { least });
        if end - start <= SHORT {
            assert_eq!(least, start + split_by_wording(&self.string[start..end]));
        }
        least
    }

    /// How long the longest Lyndon word is that begins at i: it reaches to the first place from which the rest of the string is smaller than from i.
    fn longest(&self, i: usize) -> usize {
        let n = self.string.len();
        let smaller = |j| self.first_difference(j, i, n).map_or(true, |order| order == Ordering::Less);
        let length = (i + 1..n).find(|&j| smaller(j)).unwrap_or(n) - i;
        if n - i <= SHORT {
            assert_eq!(length, longest_by_wording(&self.string[i..]));
        }
        length
    }

    fn is_live(&self, c: usize) -> bool {
        let m = self.string.len();
        (1..m).all(|d| self.first_difference(c, d, m) != Some(Ordering::Greater))
    }

    /// A Lyndon word, smaller than each of its suffixes: a suffix with no difference is a prefix of it.
    fn is_lyndon(&self, start: usize, end: usize) -> bool {
        (start + 1..end).all(|i| self.first_difference(start, i, end) == Some(Ordering::Less))
    }

    fn drops(&self, d: usize, c: usize) -> bool {
        let (word, tail) = (c - d, self.string.len() - c);
        tail > word && self.agreeing(d, c) >= word && self.is_lyndon(d, c)
    }

    fn listed_cuts(&self) -> Vec<usize> {
        (1..self.string.len()).filter(|&c| self.is_live(c)).filter(|&c| !(1..c).any(|d| self.drops(d, c))).collect()
    }
}
