//! The library's search in Rust: the cuts of a pattern that are listed, counting, listing.

use crate::baseline::*;
use crate::steps::rearrange;
use crate::tables::{value, with_loaded};

// The areas of the work slice during a search; what is loaded stays where it is.
const FOUND: usize = 6656;
const PATTERN: usize = 8960;
const CUTS: usize = 11008;

/// What a table holds: the samples of a drive, or its steps.
#[derive(Clone, Copy)]
enum Content {
    Samples,
    Steps,
}

/// What it holds as its form says.
fn content_of(form: u32) -> Content {
    if form % 2 == 1 {
        Content::Steps
    } else {
        Content::Samples
    }
}

/// A sample of a pattern: a byte, or one whose comparisons are counted.
pub trait Sample: Copy + PartialEq {
    fn rank(self) -> u32;
}

impl Sample for u8 {
    fn rank(self) -> u32 {
        rank_of(self)
    }
}

/// The first index at which two tails differ, or the shorter one's length where there is none. The samples before `known` are known to agree.
fn first_difference<S: Sample>(x: &[S], y: &[S], known: usize) -> usize {
    let short = x.len().min(y.len());
    let mut i = known;
    loop {
        if i == short {
            break short;
        }
        if at(x, i) != at(y, i) {
            break i;
        }
        i += 1;
    }
}

/// A run: its start, the place a copy before its end, its end, and the place behind its whole copies.
type Run = (usize, usize, usize, usize);

/// The run that starts at a place, as far as it goes.
fn scan<S: Sample>(pattern: &[S], start: usize) -> Run {
    let x = tail(pattern, start);
    let mut word = 1;
    while word < x.len() {
        let y = tail(x, word);
        if at(x, 0) == at(y, 0) {
            let d = first_difference(x, y, 1);
            if !grows(x, y, d) {
                return run_of(start, word, d);
            }
            word += d + 1;
        } else {
            if !grows(x, y, 0) {
                return run_of(start, word, 0);
            }
            word += 1;
        }
    }
    run_of(start, word, 0)
}

fn tail<S: Sample>(s: &[S], i: usize) -> &[S] {
    unsafe { s.get_unchecked(i..) }
}

/// Whether a word grows by what stands up to the first difference d of the tail x from its start and the tail y from behind it.
fn grows<S: Sample>(x: &[S], y: &[S], d: usize) -> bool {
    if d == y.len() {
        return false;
    }
    at(x, d).rank() < at(y, d).rank()
}

/// The run of a word of so many samples from `start` on, and `more` samples that repeat it.
fn run_of(start: usize, word: usize, more: usize) -> Run {
    (start, start + more, start + word + more, start + copies(word, more) * word)
}

/// How many whole copies of a word stand in it and `more` samples that repeat it.
fn copies(word: usize, more: usize) -> usize {
    if more < word {
        return 1;
    }
    1 + unsafe { (more as u32).checked_div(word as u32).unwrap_unchecked() } as usize
}

/// Writes a cut behind the n that stand at the front, if it is listed. Answers how many stand there then.
fn append(cuts: &mut [u32], n: usize, cut: usize, listed: bool) -> usize {
    if listed {
        put(cuts, n, cut as u32);
        return n + 1;
    }
    n
}

/// The same for the listed cuts of a run: where it reaches the end of m samples its start, and also the start of its last copy if that is
/// another one and the copy reaches the end.
fn append_run(cuts: &mut [u32], n: usize, (start, back, end, next): Run, m: usize) -> usize {
    if end < m {
        return n;
    }
    put(cuts, n, start as u32);
    append(cuts, n + 1, back, start < back && next == m)
}

/// Writes the listed cuts of a pattern at the front of a slice. Answers how many there are.
pub fn list<S: Sample>(pattern: &[S], cuts: &mut [u32]) -> usize {
    let m = pattern.len();
    let (mut start, mut n) = (1, 0);
    while start < m {
        let run = scan(pattern, start);
        n = append_run(cuts, n, run, m);
        start = run.3;
    }
    n
}

/// The largest whole k for which 2 to the power k is at most m.
fn floor_log2(m: usize) -> usize {
    (31 - (m as u32).leading_zeros()) as usize
}

/// The refusal of a pattern, if it has one.
fn pattern_refused(pattern: &[u8]) -> Option<Answer> {
    if pattern.len() == 0 {
        return Some(refused(2, 0));
    }
    if 2047 < pattern.len() {
        return Some(refused(3, 0));
    }
    None
}

/// The refusal of a pattern that is searched for, if it has one: where a table holds steps, one sample is refused too.
fn search_refused(content: Content, pattern: &[u8]) -> Option<Answer> {
    if let Some(a) = pattern_refused(pattern) {
        return Some(a);
    }
    match content {
        Content::Steps if pattern.len() == 1 => Some(refused(10, 0)),
        _ => None,
    }
}

/// The listed cuts of a pattern.
#[inline(never)]
pub fn live_cuts(pattern: &[u8], result: &mut [u32]) -> Answer {
    if let Some(a) = pattern_refused(pattern) {
        return a;
    }
    let mut cuts = [0; 11];
    let k = floor_log2(pattern.len());
    let n = list(pattern, unsafe { cuts.get_unchecked_mut(0..k + 1) });
    if result.len() < n {
        return refused(9, n);
    }
    unsafe { result.get_unchecked_mut(0..n) }.copy_from_slice(part(&cuts, 0, n));
    done(n, 0)
}

/// What stands in an area of a rule, as an index.
fn word(work: &[u32], area: usize, r: usize) -> usize {
    at(work, area + r) as usize
}

/// The number in word i of the table, a half of a pair rule.
fn half(work: &[u32], i: usize) -> usize {
    value(at(work, TABLE + i)) as usize
}

/// The two halves of a pair rule; none of a symbol's.
fn halves(work: &[u32], r: usize) -> Option<(usize, usize)> {
    if at(work, TABLE + 2 * r) < 1 << 30 {
        return None;
    }
    Some((half(work, 2 * r), half(work, 2 * r + 1)))
}

/// The longest tail of a pattern's n listed cuts, which is that of the first; 0 if it has none.
fn longest_tail(work: &[u32], m: usize, n: usize) -> usize {
    if n == 0 {
        return 0;
    }
    m - at(work, CUTS) as usize
}

/// The index of the first listed cut whose tail has at most `right` samples; where not all fit, it is sought from the end.
fn first_fitting(work: &[u32], m: usize, n: usize, longest: usize, right: usize) -> usize {
    if longest <= right {
        return 0;
    }
    let low = (m - right) as u32;
    let mut i = n;
    while low <= at(work, CUTS + i - 1) {
        i -= 1;
    }
    i
}

/// Whether the pattern, m samples, straddles a join at cut c, where both parts fit. The sample before the cut is compared first.
fn straddles(work: &[u32], m: usize, c: usize, join: usize) -> bool {
    if at(work, join - 1) != at(work, PATTERN + c - 1) {
        return false;
    }
    let place = join - c;
    equal(part(work, place, place + m), part(work, PATTERN, PATTERN + m))
}

/// What is found in a rule or at its join, and how many tests were made up to there.
struct Tested {
    found: u32,
    tests: usize,
}

/// The tests at the join of two strings, the first of which stands at a place, behind those made before: found are 4096 and the cut, among n that are listed, at
/// which the pattern straddles the join, 0 if it does not. The cuts rise: behind one that is greater than the first string none fits. Behind the last one
/// stands a word that is greater than any.
fn test_join(work: &[u32], m: usize, n: usize, longest: usize, place: usize, left: usize, right: usize, before: usize) -> Tested {
    let join = place + left;
    let mut i = first_fitting(work, m, n, longest, right);
    let mut found = 0;
    let mut tests = before;
    while at(work, CUTS + i) as usize <= left {
        let c = at(work, CUTS + i);
        if straddles(work, m, c as usize, join) {
            found = 4096 + c;
        }
        tests += 1;
        i += 1;
    }
    Tested { found, tests }
}

/// The occurrences in both halves times 4096, and what is found at the join.
fn found(work: &[u32], u: usize, v: usize, joined: u32) -> u32 {
    (at(work, FOUND + u) + at(work, FOUND + v)) / 4096 * 4096 + joined
}

/// What is found in rule r, of a pattern of one sample: it has no cut.
fn found_of_one(work: &[u32], r: usize) -> u32 {
    let Some((u, v)) = halves(work, r) else {
        let found = at(work, word(work, PLACES, r)) == at(work, PATTERN);
        return if found { 4096 } else { 0 };
    };
    found(work, u, v, 0)
}

/// The occurrences in rule r times 4096 and the cut at its join. A string shorter than the pattern has none; one of two symbols or more is a pair's.
fn found_in(work: &[u32], m: usize, n: usize, longest: usize, r: usize, tests: usize) -> Tested {
    if m < 2 {
        return Tested { found: found_of_one(work, r), tests };
    }
    if at(work, LENGTHS + r) < m as u32 {
        return Tested { found: 0, tests };
    }
    let (u, v) = (half(work, 2 * r), half(work, 2 * r + 1));
    let (left, right) = (word(work, LENGTHS, u), word(work, LENGTHS, v));
    let joined = test_join(work, m, n, longest, word(work, PLACES, r), left, right, tests);
    Tested { found: found(work, u, v, joined.found), tests: joined.tests }
}

/// What is found in every rule, from the first up. Answers how many tests were made.
fn count_rules(work: &mut [u32], m: usize, n: usize, rules: usize) -> usize {
    let longest = longest_tail(work, m, n);
    let (mut tests, mut r) = (0, 0);
    while r < rules {
        let x = found_in(work, m, n, longest, r, tests);
        put(work, FOUND + r, x.found);
        tests = x.tests;
        r += 1;
    }
    tests
}

/// How many occurrences of the pattern, m samples, begin before place `from` of the text: none, or the one at its start.
fn passed_over(work: &[u32], m: usize, from: usize, rules: usize) -> usize {
    if from == 0 || word(work, LENGTHS, rules - 1) <= m || at(work, 1) != at(work, PATTERN) {
        return 0;
    }
    if equal_many(part(work, 1, m + 1), part(work, PATTERN, PATTERN + m)) {
        return 1;
    }
    0
}

/// Counts the occurrences of a pattern in the text that is loaded, from place `from` on, and the tests; none, where the root's string is shorter.
fn count_from(from: usize, pattern: &[u8], work: &mut [u32], rules: usize) -> (usize, usize) {
    let m = pattern.len();
    if at(work, LENGTHS + rules - 1) < m as u32 {
        clear(work, FOUND, FOUND + rules);
        return (0, 0);
    }
    write_ranks(pattern, unsafe { work.get_unchecked_mut(PATTERN..PATTERN + m) });
    let k = floor_log2(m);
    let n = list(pattern, unsafe { work.get_unchecked_mut(CUTS..CUTS + k + 1) });
    put(work, CUTS + n, 4096);
    let before = passed_over(work, m, from, rules);
    let tests = count_rules(work, m, n, rules);
    (word(work, FOUND, rules - 1) / 4096 - before, tests)
}

/// Counts the finds of a pattern in the text that is loaded, and the tests.
fn count_loaded(content: Content, pattern: &[u8], work: &mut [u32], rules: usize) -> (usize, usize) {
    match content {
        Content::Samples => count_from(0, pattern, work, rules),
        Content::Steps => count_steps(pattern, work, rules),
    }
}

/// The same where the text is steps: the pattern's own stand behind its first sample, once it is rearranged.
fn count_steps(pattern: &[u8], work: &mut [u32], rules: usize) -> (usize, usize) {
    let mut steps = [0; 2047];
    rearrange(pattern, &mut steps);
    count_from(1, unsafe { steps.get_unchecked(1..pattern.len()) }, work, rules)
}

fn searched(count: usize, tests: usize) -> Found {
    Found { answer: done(count, 0), tests: tests as u64 }
}

/// The number of finds of a pattern in the drive of a table that holds what the form says.
#[inline(never)]
pub fn count(table: &[u32], form: u32, pattern: &[u8], work: &mut [u32]) -> Found {
    let content = content_of(form);
    if let Some(a) = search_refused(content, pattern) {
        return a.into();
    }
    with_loaded(Order::Signed, table, work, |work| {
        let (n, tests) = count_loaded(content, pattern, work, table.len() / 2);
        searched(n, tests)
    })
}

/// Writes the occurrence at a place of the marked text as entry n, counted from `first` on; none if it is before that. Answers where the next goes.
fn list_one(result: &mut [u32], n: usize, first: usize, place: usize) -> usize {
    if place < first {
        return n;
    }
    put(result, n, (place - first) as u32);
    n + 1
}

/// The same for the occurrence that begins c symbols before a join, none if c is 0.
fn list_cut(result: &mut [u32], n: usize, first: usize, join: usize, c: usize) -> usize {
    if c == 0 {
        return n;
    }
    list_one(result, n, first, join - c)
}

/// The same for the occurrences in rule r, whose string stands at a place: left half and join, and so on down the right halves.
fn list_rule(work: &[u32], r: usize, place: usize, first: usize, result: &mut [u32], n: usize) -> usize {
    let (mut rest, mut place, mut n) = (r, place, n);
    while word(work, FOUND, rest) / 4096 != 0 {
        let Some((u, v)) = halves(work, rest) else {
            return list_one(result, n, first, place);
        };
        let (join, cut) = (place + word(work, LENGTHS, u), word(work, FOUND, rest) % 4096);
        n = list_half(work, u, place, first, result, n);
        n = list_cut(result, n, first, join, cut);
        place = join;
        rest = v;
    }
    n
}

/// The same for a left half: a call only for a pair that has occurrences.
fn list_half(work: &[u32], r: usize, place: usize, first: usize, result: &mut [u32], n: usize) -> usize {
    if word(work, FOUND, r) / 4096 == 0 {
        return n;
    }
    if halves(work, r).is_none() {
        return list_one(result, n, first, place);
    }
    list_rule(work, r, place, first, result, n)
}

/// The place of the marked text from which finds are listed: behind the mark and, where the text is steps, behind the kept first sample.
fn first_of(content: Content) -> usize {
    match content {
        Content::Samples => 1,
        Content::Steps => 2,
    }
}

/// The finds of a pattern in the drive of a table that holds what the form says.
#[inline(never)]
pub fn locate(table: &[u32], form: u32, pattern: &[u8], work: &mut [u32], result: &mut [u32]) -> Found {
    let content = content_of(form);
    if let Some(a) = search_refused(content, pattern) {
        return a.into();
    }
    with_loaded(Order::Signed, table, work, |work| {
        let rules = table.len() / 2;
        let (n, tests) = count_loaded(content, pattern, work, rules);
        if result.len() < n {
            return refused(9, n).into();
        }
        list_rule(work, rules - 1, 0, first_of(content), result, 0);
        searched(n, tests)
    })
}
