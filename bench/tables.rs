//! The library's algorithms on tables in Rust: checking, reading back, reading a part, the longest Lyndon words, conversion to the signed order.

use crate::baseline::*;

/// What a word holds below its kind.
pub fn value(word: u32) -> u32 {
    word % (1 << 30)
}

/// Whether a word names a rule before r, as a half whose words begin at `least`.
fn is_half(r: usize, x: u32, least: u32) -> bool {
    (x.wrapping_sub(least) as usize) < r
}

/// Whether y may stand beside the symbol of rule r.
fn is_beside_symbol(r: usize, y: u32) -> bool {
    y >> 30 == 3 && value(y) <= if r == 0 { 65535 } else { 0 }
}

/// Which of the two words of rule r is bad: 1 the first, else 2 the second, else 0.
fn bad_of(r: usize, x: u32, y: u32) -> usize {
    if is_half(r, x, 1 << 30) {
        return if is_half(r, y, 2 << 30) { 0 } else { 2 };
    }
    if 256 < x {
        return 1;
    }
    if is_beside_symbol(r, y) {
        0
    } else {
        2
    }
}

/// The lowest index of a bad word, the table's length if there is none.
fn bad_word(table: &[u32]) -> usize {
    let n = table.len() / 2;
    let mut r = 0;
    while r < n {
        let bad = bad_of(r, at(table, 2 * r), at(table, 2 * r + 1));
        if bad != 0 {
            return 2 * r + bad - 1;
        }
        r += 1;
    }
    table.len()
}

/// Whether of the n ranks at the front the first alone is the mark.
fn is_marked(work: &[u32], n: usize) -> bool {
    let mut wrong = at(work, 0) != 0;
    let mut i = 1;
    while i < n {
        wrong = wrong | (at(work, i) == 0);
        i += 1;
    }
    !wrong
}

fn chair_of(table: &[u32]) -> u16 {
    value(at(table, 1)) as u16
}

/// Whether no two rules have the same words and rule 0 alone is the mark, by a dictionary at the front.
fn is_distinct(table: &[u32], work: &mut [u32]) -> bool {
    if at(table, 0) != 0 {
        return false;
    }
    clear(work, 0, 1024);
    let rules = table.len() / 2;
    let mut r = 0;
    while r < rules {
        let (x, y) = (at(table, 2 * r), at(table, 2 * r + 1));
        if !is_new(table, work, r) {
            return false;
        }
        let b = bucket(x, y);
        let old = at(work, b);
        put(work, 1024 + r, old);
        put(work, b, r as u32 + 1);
        r += 1;
    }
    true
}

fn is_new(table: &[u32], work: &[u32], r: usize) -> bool {
    let x = at(table, 2 * r);
    if x as usize + 1 == (1 << 30) + r {
        return true;
    }
    let y = at(table, 2 * r + 1);
    if y as usize + 1 == (2 << 30) + r {
        return true;
    }
    if x == 0 {
        return r == 0;
    }
    find(table, work, x, y) == 0
}

/// The length of each rule's string; none is above 2,048.
fn measure(table: &[u32], work: &mut [u32]) -> bool {
    let rules = table.len() / 2;
    let mut r = 0;
    while r < rules {
        let n = length_of(table, work, r);
        if 2048 < n {
            return false;
        }
        put(work, LENGTHS + r, n);
        r += 1;
    }
    true
}

fn length_of(table: &[u32], work: &[u32], r: usize) -> u32 {
    let (x, y) = (at(table, 2 * r), at(table, 2 * r + 1));
    if x < 1 << 30 {
        return 1;
    }
    at(work, LENGTHS + value(x) as usize) + at(work, LENGTHS + value(y) as usize)
}

/// The entry and the place of each rule, from the root down: whether the root meets all rules in their order.
fn enter_all(table: &[u32], work: &mut [u32]) -> bool {
    let mut r = table.len() / 2;
    enter(work, r - 1, 0, 0);
    while 0 < r {
        r -= 1;
        if !enter_halves(table, work, r) {
            return false;
        }
    }
    true
}

fn enter_halves(table: &[u32], work: &mut [u32], r: usize) -> bool {
    let (x, y) = (at(table, 2 * r), at(table, 2 * r + 1));
    let e = at(work, ENTRIES + r) as usize;
    if x < 1 << 30 {
        return e == r;
    }
    let (u, v) = (value(x) as usize, value(y) as usize);
    let start = at(work, PLACES + r);
    let behind = start + at(work, LENGTHS + u);
    let d = enter(work, u, e, start);
    enter(work, v, d, behind) == r
}

fn enter(work: &mut [u32], q: usize, e: usize, place: u32) -> usize {
    if q < e {
        return e;
    }
    put(work, ENTRIES + q, e as u32);
    put(work, PLACES + q, place);
    q + 1
}

/// Each rule written at its place, the mark's first: whether the halves of each are in order.
fn fill_all(order: Order, table: &[u32], work: &mut [u32]) -> bool {
    let start = at(work, PLACES) as usize;
    put(work, start, 0);
    let rules = table.len() / 2;
    let mut r = 1;
    while r < rules {
        if !fill_rule(order, table, work, r) {
            return false;
        }
        r += 1;
    }
    true
}

fn fill_rule(order: Order, table: &[u32], work: &mut [u32], r: usize) -> bool {
    let (x, y) = (at(table, 2 * r), at(table, 2 * r + 1));
    let start = at(work, PLACES + r) as usize;
    if x < 1 << 30 {
        put(work, start, rank_of_number(order, x));
        return true;
    }
    let (u, v) = (value(x) as usize, value(y) as usize);
    let behind = start + at(work, LENGTHS + u) as usize;
    write_rule(work, u, start);
    write_rule(work, v, behind);
    in_order(table, work, u, v, start, behind)
}

/// The rank of a sample's number in a symbol rule.
fn rank_of_number(order: Order, number: u32) -> u32 {
    rank_in(order, (number - 1) as u8)
}

fn write_rule(work: &mut [u32], q: usize, to: usize) {
    let from = at(work, PLACES + q) as usize;
    if from == to {
        return;
    }
    let n = at(work, LENGTHS + q) as usize;
    let first = at(work, from);
    put(work, to, first);
    if n == 1 {
        return;
    }
    copy_within(work, from + 1, to + 1, n - 1);
}

fn copy_within(work: &mut [u32], from: usize, to: usize, n: usize) {
    let mut i = 0;
    while i < n {
        let x = at(work, from + i);
        put(work, to + i, x);
        i += 1;
    }
}

fn in_order(table: &[u32], work: &[u32], left: usize, right: usize, start: usize, behind: usize) -> bool {
    let n = at(work, LENGTHS + right) as usize;
    if !is_smaller(work, start, behind, n) {
        return false;
    }
    let (x, y) = (at(table, 2 * left), at(table, 2 * left + 1));
    if x < 1 << 30 || value(y) as usize == right {
        return true;
    }
    let middle = start + at(work, LENGTHS + value(x) as usize) as usize;
    !is_smaller(work, middle, behind, n)
}

fn is_smaller(work: &[u32], i: usize, j: usize, n: usize) -> bool {
    let (a, b) = (at(work, i), at(work, j));
    if a != b {
        return a < b;
    }
    rest_before(part(work, 0, LENGTHS), i, j, n)
}

fn load(order: Order, table: &[u32], work: &mut [u32]) -> bool {
    if !is_distinct(table, work) || !measure(table, work) || !enter_all(table, work) || !fill_all(order, table, work) {
        return false;
    }
    if !is_marked(work, text_length(table, work) + 1) {
        return false;
    }
    unsafe { work.get_unchecked_mut(TABLE..TABLE + table.len()) }.copy_from_slice(table);
    true
}

/// Checks a table by an order of samples and loads it; what `deliver` answers then.
pub fn with_loaded<A: From<Answer>>(order: Order, table: &[u32], work: &mut [u32], deliver: impl FnOnce(&mut [u32]) -> A) -> A {
    if work.len() < WORK {
        return refused(4, 0).into();
    }
    let m = table.len();
    if m == 0 || m % 2 == 1 || 4608 < m {
        return refused(5, 0).into();
    }
    let i = bad_word(table);
    if i < m {
        return refused(6, i).into();
    }
    let answer = if load(order, table, work) { deliver(work) } else { refused(7, 0).into() };
    clear(work, 0, WORK);
    answer
}

/// Whether a table is one; its number of rules.
#[inline(never)]
pub fn check(table: &[u32], work: &mut [u32]) -> Answer {
    with_loaded(Order::Signed, table, work, |_| done(table.len() / 2, 0))
}

/// The number of samples of the text that is loaded.
pub fn text_length(table: &[u32], work: &[u32]) -> usize {
    at(work, LENGTHS + (table.len() / 2 - 1)) as usize - 1
}

/// The samples of rule r, which begins with the mark, at the front: its left half, and in the rest of the slice its right half. Answers how many there are.
fn spell(work: &[u32], r: usize, result: &mut [u8]) -> usize {
    let (x, y) = (at(work, TABLE + 2 * r), at(work, TABLE + 2 * r + 1));
    if x < 1 << 30 {
        return 0;
    }
    let n = spell(work, value(x) as usize, result);
    n + copy_rule(work, value(y) as usize, unsafe { result.get_unchecked_mut(n..) })
}

/// The samples of rule r, which has no mark, from the ranks where it stands.
fn copy_rule(work: &[u32], r: usize, result: &mut [u8]) -> usize {
    let (place, length) = (at(work, PLACES + r) as usize, at(work, LENGTHS + r) as usize);
    copy(part(work, place, place + length), result);
    length
}

/// The text and the chair of a table; `write` writes the text that is loaded.
fn text_of(table: &[u32], work: &mut [u32], result: &mut [u8], write: impl FnOnce(&[u32], usize, &mut [u8])) -> Answer {
    with_loaded(Order::Signed, table, work, |work| {
        let n = text_length(table, work);
        if result.len() < n {
            return refused(9, n);
        }
        write(work, n, result);
        done(n, chair_of(table))
    })
}

/// Reading by a walk over the rules.
#[inline(never)]
pub fn read(table: &[u32], work: &mut [u32], result: &mut [u8]) -> Answer {
    text_of(table, work, result, |work, _, result| {
        spell(work, table.len() / 2 - 1, result);
    })
}

/// Reading by a copy of the ranks that the root spells.
#[inline(never)]
pub fn copied(table: &[u32], work: &mut [u32], result: &mut [u8]) -> Answer {
    text_of(table, work, result, |work, n, result| copy(part(work, 1, 1 + n), result))
}

/// The part of a table's text that begins at `start` and has `count` samples.
#[inline(never)]
pub fn extract(table: &[u32], start: usize, count: usize, work: &mut [u32], result: &mut [u8]) -> Answer {
    with_loaded(Order::Signed, table, work, |work| {
        let n = text_length(table, work);
        if n < start || n - start < count {
            return refused(8, 0);
        }
        if result.len() < count {
            return refused(9, count);
        }
        copy(part(work, 1 + start, 1 + start + count), result);
        done(count, 0)
    })
}

/// The samples of ranks at the front.
pub fn copy(ranks: &[u32], result: &mut [u8]) {
    let mut i = 0;
    while i < ranks.len() {
        put(result, i, byte_of(at(ranks, i)));
        i += 1;
    }
}

/// The length of the longest Lyndon word that begins at a position of a table's text.
#[inline(never)]
pub fn lyndon_length(table: &[u32], position: usize, work: &mut [u32]) -> Answer {
    with_loaded(Order::Signed, table, work, |work| {
        let n = text_length(table, work);
        if n <= position {
            return refused(8, 0);
        }
        ends(work, n + 1);
        done(at(work, LONGEST + 1 + position) as usize, 0)
    })
}

/// These lengths at all positions.
#[inline(never)]
pub fn lyndon_array(table: &[u32], work: &mut [u32], result: &mut [u32]) -> Answer {
    with_loaded(Order::Signed, table, work, |work| {
        let n = text_length(table, work);
        if result.len() < n {
            return refused(9, n);
        }
        ends(work, n + 1);
        let mut i = 0;
        while i < n {
            put(result, i, at(work, LONGEST + 1 + i));
            i += 1;
        }
        done(n, 0)
    })
}

/// The table in the signed order of the text and chair number of a table in the unsigned one.
#[inline(never)]
pub fn to_signed(table: &[u32], work: &mut [u32], result: &mut [u32]) -> Answer {
    with_loaded(Order::Unsigned, table, work, |work| {
        let n = text_length(table, work) + 1;
        let mut i = 1;
        while i < n {
            let rank = at(work, i);
            put(work, i, rank_of((rank - 1) as u8));
            i += 1;
        }
        let m = build_table(work, n, chair_of(table));
        deliver_table(work, m, result)
    })
}
