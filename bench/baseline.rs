//! The library's algorithms in Rust, for comparison: unchecked indexes, no allocation, the same areas of the work slice.

pub const LONGEST: usize = 2048;
pub const CLOSINGS: usize = 4096;
pub const STACK: usize = 6144;
pub const LINKS: usize = 8192;
pub const LENGTHS: usize = 2048;
pub const PLACES: usize = 4352;
pub const ENTRIES: usize = 6656;
pub const TABLE: usize = 11520;
const TABLE_END: usize = 16128;
pub const WORK: usize = 16384;

/// The order in which samples are compared: as unsigned bytes, or as signed ones, where a byte of 128 or more means itself minus 256.
#[derive(Clone, Copy)]
pub enum Order {
    Unsigned,
    Signed,
}

/// The rank of a byte in an order of samples.
pub fn rank_in(order: Order, byte: u8) -> u32 {
    match order {
        Order::Unsigned => byte as u32 + 1,
        Order::Signed => rank_of(byte),
    }
}

/// The rank of a byte in the signed order.
pub fn rank_of(byte: u8) -> u32 {
    (byte as u32 + 128) % 256 + 1
}

/// The ranks of samples at the front.
pub fn write_ranks(samples: &[u8], ranks: &mut [u32]) {
    let mut i = 0;
    while i < samples.len() {
        put(ranks, i, rank_of(at(samples, i)));
        i += 1;
    }
}

/// The byte of a sample's rank in the signed order.
pub fn byte_of(rank: u32) -> u8 {
    ((rank + 127) % 256) as u8
}

/// Number, place, count and chair, as the library answers them.
pub type Answer = (u32, u64, u64, u32);

/// What a search answers: that, and its number of tests.
#[derive(Clone, Copy)]
pub struct Found {
    pub answer: Answer,
    pub tests: u64,
}

/// An answer alone is that of a refusal, which has no tests, or of another service.
impl From<Answer> for Found {
    fn from(answer: Answer) -> Found {
        Found { answer, tests: 0 }
    }
}

pub fn done(count: usize, chair: u16) -> Answer {
    (0, 0, count as u64, chair as u32)
}

pub fn refused(number: u32, place: usize) -> Answer {
    (number, place as u64, 0, 0)
}

#[inline(always)]
pub fn at<T: Copy>(s: &[T], i: usize) -> T {
    unsafe { *s.get_unchecked(i) }
}

#[inline(always)]
pub fn put<T>(s: &mut [T], i: usize, x: T) {
    unsafe { *s.get_unchecked_mut(i) = x }
}

#[inline(always)]
pub fn part(s: &[u32], from: usize, to: usize) -> &[u32] {
    unsafe { s.get_unchecked(from..to) }
}

/// Whether two slices of the same length hold the same words. Few are compared one by one; of more the first eight, and then blocks. The last block
/// ends with the slice, and may begin inside what is compared before.
#[inline(always)]
pub fn equal(x: &[u32], y: &[u32]) -> bool {
    let n = x.len();
    if n < 8 {
        return equal_front(x, y, n);
    }
    if !equal_front(x, y, 8) {
        return false;
    }
    if n < 16 {
        return equal_many(part(x, n - 8, n), part(y, n - 8, n));
    }
    equal_by_sixteen(x, y)
}

/// Whether their first n words are the same, up to the first that differs.
#[inline(always)]
fn equal_front(x: &[u32], y: &[u32], n: usize) -> bool {
    let mut i = 0;
    while i < n {
        if at(x, i) != at(y, i) {
            return false;
        }
        i += 1;
    }
    true
}

#[inline(always)]
fn equal_by_sixteen(x: &[u32], y: &[u32]) -> bool {
    let n = x.len();
    let blocks = n / 16;
    let mut i = 0;
    while i < blocks {
        let a = 16 * i;
        let b = a + 16;
        if !equal_many(part(x, a, b), part(y, a, b)) {
            return false;
        }
        i += 1;
    }
    equal_many(part(x, n - 16, n), part(y, n - 16, n))
}

/// Whether all words are the same: the loop goes to the end.
#[inline(always)]
pub fn equal_many(x: &[u32], y: &[u32]) -> bool {
    let mut alike = true;
    let mut i = 0;
    while i < x.len() {
        alike = alike & (at(x, i) == at(y, i));
        i += 1;
    }
    alike
}

/// How many of the first blocks of eight symbols are passed: all of them, or those before the first that is not alike.
fn alike(x: &[u32], y: &[u32], blocks: usize) -> usize {
    let mut i = 0;
    while i < blocks {
        let a = 8 * i;
        let b = a + 8;
        if !equal_many(part(x, a, b), part(y, a, b)) {
            return i;
        }
        i += 1;
    }
    i
}

fn smaller_from(x: &[u32], y: &[u32], from: usize, short: usize) -> bool {
    let mut i = from;
    while i < short {
        let (a, b) = (at(x, i), at(y, i));
        if a != b {
            return a < b;
        }
        i += 1;
    }
    x.len() < y.len()
}

fn smaller(x: &[u32], y: &[u32]) -> bool {
    let (m, n) = (x.len(), y.len());
    let short = if m < n { m } else { n };
    if short < 16 {
        return smaller_from(x, y, 0, short);
    }
    let i = 8 * alike(x, y, short / 8);
    smaller_from(x, y, i, short)
}

pub fn before(s: &[u32], i: usize, j: usize, k: usize) -> bool {
    let (a, b) = (at(s, i), at(s, j));
    if a != b {
        return a < b;
    }
    rest_before(s, i, j, k)
}

#[inline(never)]
pub fn rest_before(s: &[u32], i: usize, j: usize, k: usize) -> bool {
    if i + 1 == j {
        return 1 < k;
    }
    if k == 1 {
        return false;
    }
    smaller(part(s, i + 1, j), part(s, j + 1, j + k))
}

pub fn merge(work: &mut [u32], n: usize, i: usize) -> usize {
    let mut j = i + 1;
    while j < n {
        let k = at(work, LONGEST + j) as usize;
        if !before(work, i, j, k) {
            return j;
        }
        let closes = at(work, CLOSINGS + j + k - 1);
        put(work, CLOSINGS + j + k - 1, closes + 1);
        j += k;
    }
    j
}

pub fn ends(work: &mut [u32], n: usize) {
    let mut i = n;
    while 0 < i {
        i -= 1;
        put(work, CLOSINGS + i, 0);
        let j = merge(work, n, i);
        put(work, LONGEST + i, (j - i) as u32);
    }
}

pub fn bucket(x: u32, y: u32) -> usize {
    let h = x as u64 * 1640531527 + y as u64 * 374761392;
    (h / 2097152 % 1024) as usize
}

/// One more than the newest rule with two words, 0 if there is none.
pub fn find(rules: &[u32], links: &[u32], x: u32, y: u32) -> usize {
    let mut r = at(links, bucket(x, y)) as usize;
    while 0 < r {
        let k = 2 * r - 2;
        if at(rules, k) == x && at(rules, k + 1) == y {
            return r;
        }
        r = at(links, 1023 + r) as usize;
    }
    0
}

pub fn push(work: &mut [u32], n: usize, d: usize, x: u32, y: u32) -> usize {
    let r = find(part(work, TABLE, TABLE_END), part(work, LINKS, TABLE), x, y);
    if 0 < r {
        put(work, STACK + d, r as u32 - 1);
        return n;
    }
    put(work, TABLE + 2 * n, x);
    put(work, TABLE + 2 * n + 1, y);
    let b = LINKS + bucket(x, y);
    let old = at(work, b);
    put(work, LINKS + 1024 + n, old);
    put(work, b, n as u32 + 1);
    put(work, STACK + d, n as u32);
    n + 1
}

/// The rules of the ranks at the front: the mark's first, then sample by sample its own and those of the joins that close behind it. Answers how many.
pub fn number(work: &mut [u32], len: usize) -> usize {
    let mut n = push(work, 0, 0, 0, 3 << 30);
    let (mut d, mut i) = (1, 1);
    while i < len {
        let x = byte_of(at(work, i)) as u32 + 1;
        let mut left = at(work, CLOSINGS + i);
        n = push(work, n, d, x, 3 << 30);
        d += 1;
        while 0 < left {
            let (u, v) = (at(work, STACK + d - 2), at(work, STACK + d - 1));
            n = push(work, n, d - 2, (1 << 30) + u, (2 << 30) + v);
            d -= 1;
            left -= 1;
        }
        i += 1;
    }
    n
}

pub fn clear(work: &mut [u32], from: usize, to: usize) {
    for x in unsafe { work.get_unchecked_mut(from..to) } {
        *x = 0;
    }
}

/// The table of the n ranks at the front, in the table area. Answers the number of words.
pub fn build_table(work: &mut [u32], n: usize, chair: u16) -> usize {
    ends(work, n);
    clear(work, LINKS, LINKS + 1024);
    let m = 2 * number(work, n);
    put(work, TABLE + 1, (3 << 30) + chair as u32);
    m
}

/// The table of a text.
#[inline(never)]
pub fn build(text: &[u8], chair: u16, work: &mut [u32], result: &mut [u32]) -> Answer {
    if 2047 < text.len() {
        return refused(1, 0);
    }
    if work.len() < WORK {
        return refused(4, 0);
    }
    put(work, 0, 0);
    write_ranks(text, unsafe { work.get_unchecked_mut(1..1 + text.len()) });
    let m = build_table(work, text.len() + 1, chair);
    let answer = deliver_table(work, m, result);
    clear(work, 0, WORK);
    answer
}

/// The m words of the table area at the front of the result slice, if it is long enough.
pub fn deliver_table(work: &[u32], m: usize, result: &mut [u32]) -> Answer {
    if result.len() < m {
        return refused(9, m);
    }
    let mut i = 0;
    while i < m {
        put(result, i, at(work, TABLE + i));
        i += 1;
    }
    done(m, 0)
}
