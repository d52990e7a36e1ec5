//! The library's second edition in Rust: judging it by making its first edition, and converting one to the other.

use crate::baseline::*;
use crate::tables::{bad_of, chair_of, is_marked, rank_of_number, value, with_loaded};

// The areas of the work slice while the two editions stand beside one another.
const KEPT: usize = 4096;
const NUMBERS: usize = 6400;

/// Which edition a table is.
#[derive(Clone, Copy)]
pub enum Edition {
    First,
    Second,
}

/// Which edition it is as its form says.
pub fn edition_of(form: u32) -> Edition {
    if form / 2 % 2 == 1 {
        Edition::Second
    } else {
        Edition::First
    }
}

/// How many words a rule has.
pub fn words_a_rule(edition: Edition) -> usize {
    match edition {
        Edition::First => 2,
        Edition::Second => 3,
    }
}

/// Whether z is bad behind a first word x: it is not of kind 3, holds 0 in a pair, or more than 0 in a symbol.
fn is_bad_third(x: u32, z: u32) -> bool {
    z >> 30 != 3 || (value(z) == 0) == (1 << 30 <= x)
}

/// The lowest index of a bad word of a second edition, its length if there is none.
pub fn bad_in_second(table: &[u32]) -> usize {
    let n = table.len() / 3;
    let mut r = 0;
    while r < n {
        let x = at(table, 3 * r);
        let bad = bad_of(r, x, at(table, 3 * r + 1));
        if bad != 0 {
            return 3 * r + bad - 1;
        }
        if is_bad_third(x, at(table, 3 * r + 2)) {
            return 3 * r + 2;
        }
        r += 1;
    }
    table.len()
}

/// The root of a second edition as ranks at the front. Answers how many, or 0 if they are more than 2,048. The copies of a right half are left pending, each for
/// itself; since each spells a symbol or more, and so does what is spelled now, no more are stored than the text can have.
fn expand(order: Order, table: &[u32], work: &mut [u32]) -> usize {
    let (mut rule, mut written, mut pending) = (table.len() / 3 - 1, 0, 0);
    loop {
        let x = at(table, 3 * rule);
        if x < 1 << 30 {
            put(work, written, symbol_rank(order, x));
            written += 1;
            if pending == 0 {
                return written;
            }
            pending -= 1;
            rule = at(work, STACK + pending) as usize;
        } else {
            let copies = value(at(table, 3 * rule + 2)) as usize;
            if 2048 - (written + pending) <= copies {
                return 0;
            }
            leave(work, pending, copies, value(at(table, 3 * rule + 1)));
            pending += copies;
            rule = value(x) as usize;
        }
    }
}

/// Leaves copies of a rule behind those that are pending.
fn leave(work: &mut [u32], pending: usize, copies: usize, rule: u32) {
    let mut i = 0;
    while i < copies {
        put(work, STACK + pending + i, rule);
        i += 1;
    }
}

fn symbol_rank(order: Order, number: u32) -> u32 {
    if number == 0 {
        return 0;
    }
    rank_of_number(order, number)
}

/// Marks the rules that a second edition of the table that is made keeps: symbols, the root, right halves, and left halves that do not add the same right half.
fn mark_kept(work: &mut [u32], rules: usize) {
    clear(work, KEPT, KEPT + rules);
    let mut r = 0;
    while r < rules {
        let (x, y) = (at(work, TABLE + 2 * r), at(work, TABLE + 2 * r + 1));
        if x < 1 << 30 {
            put(work, KEPT + r, 1);
        } else {
            put(work, KEPT + value(y) as usize, 1);
            if !adds(work, value(x) as usize, y) {
                put(work, KEPT + value(x) as usize, 1);
            }
        }
        r += 1;
    }
    put(work, KEPT + rules - 1, 1);
}

/// Whether a rule has this second word: that of a pair rule names its right half, and a symbol rule has another kind.
fn adds(work: &[u32], r: usize, y: u32) -> bool {
    at(work, TABLE + 2 * r + 1) == y
}

/// The new number of each rule: how many kept ones stand before it. Answers how many there are.
fn number_kept(work: &mut [u32], rules: usize) -> usize {
    let (mut n, mut r) = (0, 0);
    while r < rules {
        put(work, NUMBERS + r, n);
        n += at(work, KEPT + r);
        r += 1;
    }
    n as usize
}

/// The three words of a kept rule, by a walk over the chain that it tops.
fn kept_words(work: &[u32], r: usize) -> [u32; 3] {
    let (x, y) = (at(work, TABLE + 2 * r), at(work, TABLE + 2 * r + 1));
    if x < 1 << 30 {
        return [x, y, 3 << 30];
    }
    let (mut left, mut copies) = (value(x) as usize, 1);
    while adds(work, left, y) {
        left = value(at(work, TABLE + 2 * left)) as usize;
        copies += 1;
    }
    [(1 << 30) + at(work, NUMBERS + left), (2 << 30) + at(work, NUMBERS + value(y) as usize), (3 << 30) + copies]
}

/// Whether a second edition is that of the table that is made.
fn is_second(table: &[u32], work: &mut [u32], rules: usize) -> bool {
    mark_kept(work, rules);
    if 3 * number_kept(work, rules) != table.len() {
        return false;
    }
    let mut r = 0;
    while r < rules {
        if at(work, KEPT + r) == 1 && !is_rule(table, work, r) {
            return false;
        }
        r += 1;
    }
    true
}

/// Whether a kept rule stands in a second edition at its new number.
fn is_rule(table: &[u32], work: &[u32], r: usize) -> bool {
    let i = 3 * at(work, NUMBERS + r) as usize;
    let [x, y, z] = kept_words(work, r);
    at(table, i) == x && at(table, i + 1) == y && at(table, i + 2) == z
}

/// The lengths of the rules of the table that is made, from the first up, and a place of each, from the root down.
fn place_rules(work: &mut [u32], rules: usize) {
    let mut r = 0;
    while r < rules {
        let n = match pair(work, r) {
            None => 1,
            Some((u, v)) => at(work, LENGTHS + u) + at(work, LENGTHS + v),
        };
        put(work, LENGTHS + r, n);
        r += 1;
    }
    put(work, PLACES + rules - 1, 0);
    while 0 < r {
        r -= 1;
        if let Some((u, v)) = pair(work, r) {
            let place = at(work, PLACES + r);
            put(work, PLACES + u, place);
            put(work, PLACES + v, place + at(work, LENGTHS + u));
        }
    }
}

fn pair(work: &[u32], r: usize) -> Option<(usize, usize)> {
    let x = at(work, TABLE + 2 * r);
    if x < 1 << 30 {
        return None;
    }
    Some((value(x) as usize, value(at(work, TABLE + 2 * r + 1)) as usize))
}

/// Loads the first edition of a second one. Answers how many rules it has, none if there is no such edition.
pub fn load_second(order: Order, table: &[u32], work: &mut [u32]) -> Option<usize> {
    let n = expand(order, table, work);
    if n == 0 || !is_marked(work, n) {
        return None;
    }
    let rules = build_table(work, n, chair_of(table)) / 2;
    if !is_second(table, work, rules) {
        return None;
    }
    place_rules(work, rules);
    Some(rules)
}

/// The second edition of a table.
#[inline(never)]
pub fn to_second_edition(table: &[u32], work: &mut [u32], result: &mut [u32]) -> Answer {
    with_loaded(Order::Signed, Edition::First, table, work, |work, rules| {
        mark_kept(work, rules);
        let m = 3 * number_kept(work, rules);
        if result.len() < m {
            return refused(9, m);
        }
        let mut r = 0;
        while r < rules {
            if at(work, KEPT + r) == 1 {
                let i = 3 * at(work, NUMBERS + r) as usize;
                let [x, y, z] = kept_words(work, r);
                put(result, i, x);
                put(result, i + 1, y);
                put(result, i + 2, z);
            }
            r += 1;
        }
        done(m, 0)
    })
}

/// The first edition of a table that is a second one.
#[inline(never)]
pub fn to_first_edition(table: &[u32], work: &mut [u32], result: &mut [u32]) -> Answer {
    with_loaded(Order::Signed, Edition::Second, table, work, |work, rules| deliver_table(work, 2 * rules, result))
}
