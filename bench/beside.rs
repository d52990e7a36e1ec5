//! What else one could take, for `bench/beside`. `beside text FAMILY SAMPLES` and `beside table FAMILY SAMPLES` write a text and the library's table of
//! it. `beside SIDE FAMILY SAMPLES PATTERN [RUNS]` counts the PATTERN samples in the middle of the text: it prints what one call answers or, with RUNS,
//! the microseconds a call in the best of so many runs. SIDE is `library`, on the table, or `memmem` or `loop`, on the text.

#[path = "../tests/library.rs"]
mod library;
mod texts;

use library::*;
use std::hint::black_box;
use std::io::Write;
use std::time::Instant;

const CHAIR: u16 = 40;

/// The calls of a run: few, so that of many runs some are not interrupted.
const CALLS: u32 = 20;

extern "C" {
    fn memmem(text: *const u8, text_len: usize, pattern: *const u8, pattern_len: usize) -> *const u8;
}

/// What a call is given, and the work slice.
struct Given {
    text: Vec<u8>,
    table: Vec<u32>,
    pattern: Vec<u8>,
    work: Vec<u32>,
}

#[no_mangle]
#[inline(never)]
fn measured_library(given: &mut Given) -> u64 {
    let (table, m) = (given.table.as_ptr(), given.table.len());
    let (pattern, p) = (given.pattern.as_ptr(), given.pattern.len());
    let (work, w) = (given.work.as_mut_ptr(), given.work.len());
    let reply = unsafe { sirbolta_count(table, m, 0, pattern, p, work, w) };
    assert!(reply.number == 0);
    reply.count
}

/// memmem finds one occurrence: it is called again one sample further on, until it finds none.
#[no_mangle]
#[inline(never)]
fn measured_memmem(given: &mut Given) -> u64 {
    let (mut rest, mut count) = (&given.text[..], 0);
    while let Some(place) = first(rest, &given.pattern) {
        rest = &rest[place + 1..];
        count += 1;
    }
    count
}

/// A loop that compares at every place.
#[no_mangle]
#[inline(never)]
fn measured_loop(given: &mut Given) -> u64 {
    let pattern = &given.pattern[..];
    given.text.windows(pattern.len()).filter(|&part| part == pattern).count() as u64
}

/// The first place at which the pattern begins in the text.
fn first(text: &[u8], pattern: &[u8]) -> Option<usize> {
    let found = unsafe { memmem(text.as_ptr(), text.len(), pattern.as_ptr(), pattern.len()) };
    if found.is_null() {
        return None;
    }
    Some(found as usize - text.as_ptr() as usize)
}

fn main() {
    let args: Vec<String> = std::env::args().collect();
    let number = |i: usize| args.get(i).map_or(0, |s| s.parse::<usize>().unwrap());
    let family = texts::FAMILIES.iter().position(|&name| name == args[2]).unwrap();
    let text = texts::text(family, number(3));
    let table = table_of(&text);
    let pattern = texts::middle(&text, number(4));
    let mut given = Given { text, table, pattern, work: work() };
    match args[1].as_str() {
        "text" => write(&given.text),
        "table" => write(&given.table.iter().flat_map(|word| word.to_le_bytes()).collect::<Vec<u8>>()),
        "library" => report(measured_library, &mut given, number(5)),
        "memmem" => report(measured_memmem, &mut given, number(5)),
        "loop" => report(measured_loop, &mut given, number(5)),
        side => panic!("no side {side}"),
    }
}

fn work() -> Vec<u32> {
    vec![0xA5A5A5A5; 16384]
}

fn table_of(text: &[u8]) -> Vec<u32> {
    let (mut work, mut words) = (work(), vec![0; 4608]);
    let (work, w) = (work.as_mut_ptr(), work.len());
    let (result, k) = (words.as_mut_ptr(), words.len());
    let reply = unsafe { sirbolta_build(text.as_ptr(), text.len(), CHAIR, work, w, result, k) };
    assert!(reply.number == 0);
    words.truncate(reply.count as usize);
    words
}

fn write(bytes: &[u8]) {
    std::io::stdout().write_all(bytes).unwrap();
}

/// Prints what one call answers, or the microseconds a call of the best of so many runs.
fn report(measured: fn(&mut Given) -> u64, given: &mut Given, runs: usize) {
    if runs == 0 {
        println!("{}", measured(given));
        return;
    }
    let best = (0..runs).map(|_| microseconds(measured, given)).fold(f64::INFINITY, f64::min);
    let decimals = if best < 10.0 { 2 } else { 0 };
    println!("{best:.decimals$}");
}

/// The microseconds a call, in a run.
fn microseconds(measured: fn(&mut Given) -> u64, given: &mut Given) -> f64 {
    let start = Instant::now();
    for _ in 0..CALLS {
        black_box(measured(black_box(given)));
    }
    start.elapsed().as_secs_f64() * 1e6 / CALLS as f64
}
