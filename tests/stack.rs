//! Every service on the longest texts, in a thread with a stack of 512 KiB, and in one that has little more than the library takes: 332 KiB for the 280 of a census,
//! 288 for the 240 of reading back and locating, 32 for the others, which take less than 4. The texts: equal samples, whose Lyndon tree is deep to the left; two
//! whose tree is deep to the right, of which the rising one has the largest table; and one that is neither. Prints how many calls were right.

mod former;
mod library;

use former::former_table;
use library::*;
use std::collections::BTreeMap;

const CHAIR: u16 = 65535;

fn main() {
    for size in [512, 332] {
        println!("stack: {} calls in {size} KiB", within(size, |text| flat(text) + deep(text) + census(text)));
    }
    println!("stack: {} calls in 288 KiB, without the census", within(288, |text| flat(text) + deep(text)));
    println!("stack: {} calls in 32 KiB, without reading back and locating too", within(32, flat));
}

/// How many calls were right on a stack of so many KiB.
fn within(size: usize, served: fn(&[u8]) -> usize) -> usize {
    let calls = move || texts().iter().map(|text| served(text)).sum();
    std::thread::Builder::new().stack_size(size << 10).spawn(calls).unwrap().join().unwrap()
}

fn texts() -> [Vec<u8>; 4] {
    let left = vec![b'a'; 2047];
    let mut right = left.clone();
    right[2046] = b'b';
    let rising: Vec<u8> = (0..2047i32).map(|i| (i / 8 - 128) as u8).collect();
    assert_eq!(table_of(&rising).len(), 4608);
    let neither = (0..2047u32).map(|i| (i * i * 40503 >> 7) as u8).collect();
    [left, right, rising, neither]
}

/// The services that do not recurse.
fn flat(text: &[u8]) -> usize {
    let counts: usize = searches(text).map(count).iter().sum();
    check(text) + extract(text) + counts + cut(text) + longest(text) + convert(text) + rearrange(text) + profile(text)
}

/// Those that do, but for the census, which locates and has the drive and its runs on the stack.
fn deep(text: &[u8]) -> usize {
    let lists: usize = searches(text).map(locate).iter().sum();
    read(text) + lists
}

fn table_of(text: &[u8]) -> Vec<u32> {
    let mut work = vec![7u32; 16384];
    let mut table = vec![7u32; 4608];
    let (w, n) = (work.as_mut_ptr(), work.len());
    let built = unsafe { sirbolta_build(text.as_ptr(), text.len(), CHAIR, w, n, table.as_mut_ptr(), table.len()) };
    assert_eq!(built.number, 0);
    table.truncate(built.count as usize);
    table
}

fn check(text: &[u8]) -> usize {
    let table = table_of(text);
    let mut work = vec![7u32; 16384];
    let checked = unsafe { sirbolta_check(table.as_ptr(), table.len(), work.as_mut_ptr(), work.len()) };
    assert_eq!((checked.number, checked.count as usize), (0, table.len() / 2));
    1
}

fn read(text: &[u8]) -> usize {
    let table = table_of(text);
    let mut work = vec![7u32; 16384];
    let mut back = vec![7u8; 2047];
    let (w, n) = (work.as_mut_ptr(), work.len());
    let read = unsafe { sirbolta_read(table.as_ptr(), table.len(), w, n, back.as_mut_ptr(), back.len()) };
    assert_eq!((read.number, read.chair, read.count), (0, CHAIR as u32, 2047));
    assert_eq!(back, text);
    1
}

/// Extracts the whole drive, each half, the last sample and nothing at the end; one sample more is refused.
fn extract(text: &[u8]) -> usize {
    let table = table_of(text);
    let mut work = vec![7u32; 16384];
    let (w, n) = (work.as_mut_ptr(), work.len());
    let parts = [(0, 2047), (0, 1023), (1023, 1024), (2046, 1), (2047, 0), (2047, 1)];
    for (start, length) in parts {
        let mut part = vec![7u8; length];
        let reply = unsafe { sirbolta_extract(table.as_ptr(), table.len(), start, length, w, n, part.as_mut_ptr(), length) };
        match text.get(start..start + length) {
            Some(wanted) => assert_eq!((reply.number, reply.count as usize, &part[..]), (0, length, wanted)),
            None => assert_eq!((reply.number, reply.count, part), (8, 0, vec![7; length])),
        }
    }
    parts.len()
}

/// A search by samples, form 0, or by steps, form 1: where the pattern is found, and the tests if they are known.
struct Search {
    table: Vec<u32>,
    form: u32,
    pattern: Vec<u8>,
    places: Vec<u32>,
    tests: Option<u64>,
}

/// The last one and two samples of the text; the last two, three and all of the drive that is rearranged to it, 9 added to each.
fn searches(text: &[u8]) -> [Search; 5] {
    let drive = restored(text);
    let moved: Vec<u8> = drive.iter().map(|sample| sample.wrapping_add(9)).collect();
    [(0, 1), (0, 2), (1, 2), (1, 3), (1, 2047)].map(|(form, samples)| {
        let (searched, pattern) = if form == 0 { (text, text) } else { (&drive[..], &moved[..]) };
        let pattern = &pattern[2047 - samples..];
        let added = |i: usize| if form == 0 { 0 } else { searched[i].wrapping_sub(pattern[0]) };
        let is_found = |&i: &usize| (0..samples).all(|j| searched[i + j] == pattern[j].wrapping_add(added(i)));
        let places = (0..=2047 - samples).filter(is_found).map(|i| i as u32).collect();
        let table = table_of(text);
        // two samples or two steps have one cut, which fits at the join of every pair rule
        let tests = match samples - form as usize {
            1 => Some(0),
            2 => Some(table.iter().filter(|&word| word >> 30 == 1).count() as u64),
            _ => None,
        };
        Search { table, form, pattern: pattern.to_vec(), places, tests }
    })
}

fn count(search: Search) -> usize {
    let Search { table, form, pattern, places, tests } = search;
    let mut work = vec![7u32; 16384];
    let (t, m, w, n) = (table.as_ptr(), table.len(), work.as_mut_ptr(), work.len());
    let counted = unsafe { sirbolta_count(t, m, form, pattern.as_ptr(), pattern.len(), w, n) };
    assert_eq!((counted.number, counted.count as usize, tests.unwrap_or(counted.tests)), (0, places.len(), counted.tests));
    1
}

fn locate(search: Search) -> usize {
    let Search { table, form, pattern, places, tests } = search;
    let mut work = vec![7u32; 16384];
    let mut result = vec![7u32; places.len()];
    let (t, m, w, n) = (table.as_ptr(), table.len(), work.as_mut_ptr(), work.len());
    let located = unsafe { sirbolta_locate(t, m, form, pattern.as_ptr(), pattern.len(), w, n, result.as_mut_ptr(), result.len()) };
    assert_eq!((located.number, located.count as usize, tests.unwrap_or(located.tests)), (0, places.len(), located.tests));
    assert_eq!(result, places);
    1
}

/// Lists the cuts of the whole drive, taken as a pattern.
fn cut(pattern: &[u8]) -> usize {
    let (samples, m) = (signed(pattern), pattern.len());
    let passes = |c: usize, d: usize| {
        let shorter = m - c.max(d);
        samples[c..c + shorter] <= samples[d..d + shorter]
    };
    let drops = |d: usize, c: usize| c - d < m - c && samples[c..].starts_with(&samples[d..c]) && is_lyndon(&samples[d..c]);
    let is_listed = |c: usize| (1..m).all(|d| passes(c, d)) && !(1..c).rev().any(|d| drops(d, c));
    let listed: Vec<u32> = (1..m).filter(|&c| is_listed(c)).map(|c| c as u32).collect();
    let mut result = vec![7u32; listed.len()];
    let cut = unsafe { sirbolta_live_cuts(pattern.as_ptr(), m, result.as_mut_ptr(), result.len()) };
    assert_eq!((cut.number, cut.count as usize), (0, listed.len()));
    assert_eq!(result, listed);
    1
}

fn is_lyndon(word: &[i8]) -> bool {
    (1..word.len()).all(|i| word < &word[i..])
}

/// Lists the lengths of the longest Lyndon words, each up to the first smaller suffix, and answers the first, one in the middle and the last; one position
/// more is refused.
fn longest(text: &[u8]) -> usize {
    let table = table_of(text);
    let samples = signed(text);
    let to_smaller = |i: usize| (i + 1..text.len()).find(|&j| samples[j..] < samples[i..]).unwrap_or(text.len()) - i;
    let lengths: Vec<u32> = (0..text.len()).map(|i| to_smaller(i) as u32).collect();
    let mut work = vec![7u32; 16384];
    let mut result = vec![7u32; lengths.len()];
    let (t, m, w, n) = (table.as_ptr(), table.len(), work.as_mut_ptr(), work.len());
    let all = unsafe { sirbolta_lyndon_array(t, m, w, n, result.as_mut_ptr(), result.len()) };
    assert_eq!((all.number, all.count as usize), (0, lengths.len()));
    assert_eq!(result, lengths);
    let positions = [0, 1023, 2046, 2047];
    for position in positions {
        let reply = unsafe { sirbolta_lyndon_length(t, m, position, w, n) };
        match lengths.get(position) {
            Some(&length) => assert_eq!((reply.number, reply.count), (0, length as u64)),
            None => assert_eq!((reply.number, reply.count), (8, 0)),
        }
    }
    1 + positions.len()
}

/// Converts the drive's former table; with a word less than its table has, that is refused.
fn convert(text: &[u8]) -> usize {
    let (table, former) = (table_of(text), former_table(text, table_of));
    let mut work = vec![7u32; 16384];
    let (w, n) = (work.as_mut_ptr(), work.len());
    let mut result = vec![7u32; table.len()];
    let (r, k) = (result.as_mut_ptr(), result.len());
    let refused = unsafe { sirbolta_to_signed(former.as_ptr(), former.len(), w, n, r, k - 1) };
    assert_eq!((refused.number, refused.place as usize), (9, k));
    let converted = unsafe { sirbolta_to_signed(former.as_ptr(), former.len(), w, n, r, k) };
    assert_eq!((converted.number, converted.chair, converted.count as usize), (0, 0, k));
    assert_eq!(result, table);
    2
}

/// Restores the drive that is rearranged to the text, and rearranges it again.
fn rearrange(text: &[u8]) -> usize {
    let (mut drive, mut again) = (vec![7u8; 2047], vec![7u8; 2047]);
    let back = unsafe { sirbolta_from_steps(text.as_ptr(), text.len(), drive.as_mut_ptr(), drive.len()) };
    assert_eq!((back.number, back.count), (0, 2047));
    assert_eq!(drive, restored(text));
    let there = unsafe { sirbolta_to_steps(drive.as_ptr(), drive.len(), again.as_mut_ptr(), again.len()) };
    assert_eq!((there.number, there.count), (0, 2047));
    assert_eq!(again, text);
    2
}

/// Builds and checks the profile drive with the headings that the samples modulo 9 are and with its ends at rest; with a byte 9 in its last place but one, and with
/// a heading in its last, it and its table are refused.
fn profile(text: &[u8]) -> usize {
    let mut drive: Vec<u8> = text.iter().map(|sample| sample % 9).collect();
    (drive[0], drive[2046]) = (0, 0);
    let ends = [([drive[2045], 0], 0, 0), ([9, 0], 11, 2045), ([9, 8], 11, 2045), ([8, 8], 12, 0)];
    for (end, number, place) in ends {
        drive[2045..].copy_from_slice(&end);
        let table = table_of(&drive);
        let mut work = vec![7u32; 16384];
        let (w, n) = (work.as_mut_ptr(), work.len());
        let mut result = vec![7u32; table.len()];
        let built = unsafe { sirbolta_build_profile(drive.as_ptr(), 2047, CHAIR, w, n, result.as_mut_ptr(), result.len()) };
        let checked = unsafe { sirbolta_check_profile(table.as_ptr(), table.len(), w, n) };
        let (words, left) = if number == 0 { (table.len(), table) } else { (0, vec![7; table.len()]) };
        assert_eq!((built.number, built.place, built.count as usize), (number, place, words));
        assert_eq!((checked.number, checked.place, checked.count as usize), (number, place, words / 2));
        assert_eq!(result, left);
    }
    2 * ends.len()
}

/// The census of runs of 1 and of 8 samples; with a byte less than the runs have, and with a count less, it is refused, and so are runs of 9 samples.
fn census(text: &[u8]) -> usize {
    let (table, samples) = (table_of(text), signed(text));
    let (t, m) = (table.as_ptr(), table.len());
    let mut work = vec![7u32; 16384];
    let (w, n) = (work.as_mut_ptr(), work.len());
    let windows = [1, 8];
    for q in windows {
        let mut listed = BTreeMap::new();
        samples.windows(q).for_each(|run| *listed.entry(run).or_insert(0u32) += 1);
        let run_bytes: Vec<u8> = listed.keys().flat_map(|run| run.iter().map(|&sample| sample as u8)).collect();
        let (mut runs, mut counts) = (vec![7u8; q * listed.len()], vec![7u32; listed.len()]);
        let (r, rn, c, cn) = (runs.as_mut_ptr(), runs.len(), counts.as_mut_ptr(), counts.len());
        for (rn, cn) in [(rn - 1, cn), (rn, cn - 1)] {
            let refused = unsafe { sirbolta_census(t, m, q, w, n, r, rn, c, cn) };
            assert_eq!((refused.number, refused.place as usize, refused.count), (9, listed.len(), 0));
        }
        let done = unsafe { sirbolta_census(t, m, q, w, n, r, rn, c, cn) };
        assert_eq!((done.number, done.place, done.count as usize, done.chair), (0, 0, listed.len(), 0));
        assert_eq!(runs, run_bytes);
        assert!(counts.iter().eq(listed.values()));
    }
    let odd = unsafe { sirbolta_census(t, m, 9, w, n, std::ptr::null_mut(), 0, std::ptr::null_mut(), 0) };
    assert_eq!((odd.number, odd.place, odd.count), (13, 0, 0));
    3 * windows.len() + 1
}

/// The drive that is rearranged to these steps: each sample is the sum of the entries up to it.
fn restored(steps: &[u8]) -> Vec<u8> {
    let mut sum = 0u8;
    let add = |step: &u8| {
        sum = sum.wrapping_add(*step);
        sum
    };
    steps.iter().map(add).collect()
}

/// What samples mean.
fn signed(samples: &[u8]) -> Vec<i8> {
    samples.iter().map(|&sample| sample as i8).collect()
}
