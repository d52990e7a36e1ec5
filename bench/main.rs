//! One call of a service under callgrind: `bench SIDE SERVICE FAMILY SAMPLES [PATTERN [KIND]]`. SIDE is `library` or `rust`; SERVICE is `build`,
//! `check`, `read`, `copied` (reading, beside a Rust that copies the text), `extract` (the whole text), `count`, `locate`, `cuts` (the live cuts
//! of the pattern that a search tries), `lyndon_length` (at the first position), `lyndon_array`, `to_signed` (of the former table), `to_steps`,
//! `from_steps` (of the text that is rearranged), `build_profile`, `check_profile`, `census` (of the runs that have as many samples as the
//! pattern), `lists` (the positions of each of the 256 samples, by a call for each), or `doubling`: the check of a table of SAMPLES rules that
//! double. With `count:steps` and `locate:steps` the text is rearranged before its table is built, and the pattern searched by its steps; with
//! `count:samples` and `locate:samples` the pattern's steps are searched in that table, as samples. FAMILY 100 + m is a block of m random bytes,
//! repeated. The pattern is the PATTERN samples in the middle of the text; with the KIND `nested` so many nested samples; with @i as KIND so many
//! from position i on; and with a number k so many that are a^k, then b up to the last one, and a. It prints the answer, the number of tests, and
//! a checksum of each lent slice afterwards, which `bench/run` compares between the sides. The lent slices hold other values before the call. The
//! SERVICE `compared` calls nothing: it prints how many pairs of samples the Rust side compares to list the pattern's cuts.

mod baseline;
mod census;
mod compared;
#[path = "../tests/former.rs"]
mod former;
#[allow(dead_code)]
#[path = "../tests/inputs.rs"]
mod inputs;
#[path = "../tests/library.rs"]
mod library;
mod profile;
mod search;
mod steps;
mod tables;
mod texts;

use baseline::Found;
use former::former_table;
use library::*;

const CHAIR: u16 = 40;

/// What a call is given.
struct Given {
    service: String,
    text: Vec<u8>,
    table: Vec<u32>,
    form: u32,
    pattern: Vec<u8>,
}

/// The slices lent to a call: work, and the result as words or as bytes.
struct Lent {
    work: Vec<u32>,
    words: Vec<u32>,
    bytes: Vec<u8>,
}

fn lent() -> Lent {
    Lent { work: vec![0xA5A5A5A5; 16384], words: vec![0xA5A5A5A5; 4608], bytes: vec![0xA5; 16320] }
}

#[no_mangle]
#[inline(never)]
fn measured_library(given: &Given, lent: &mut Lent) -> Found {
    let (text, n) = (given.text.as_ptr(), given.text.len());
    let (table, m) = (given.table.as_ptr(), given.table.len());
    let (pattern, p) = (given.pattern.as_ptr(), given.pattern.len());
    let (work, w) = (lent.work.as_mut_ptr(), lent.work.len());
    let (words, k) = (lent.words.as_mut_ptr(), lent.words.len());
    let (bytes, b) = (lent.bytes.as_mut_ptr(), lent.bytes.len());
    unsafe {
        match given.service.as_str() {
            "build" => replied(sirbolta_build(text, n, CHAIR, work, w, words, k)),
            "check" | "doubling" => replied(sirbolta_check(table, m, work, w)),
            "read" | "copied" => replied(sirbolta_read(table, m, work, w, bytes, b)),
            "extract" => replied(sirbolta_extract(table, m, 0, n, work, w, bytes, b)),
            "count" => found(sirbolta_count(table, m, given.form, pattern, p, work, w)),
            "locate" => found(sirbolta_locate(table, m, given.form, pattern, p, work, w, words, k)),
            "cuts" => replied(sirbolta_live_cuts(pattern, p, words, k)),
            "lyndon_length" => replied(sirbolta_lyndon_length(table, m, 0, work, w)),
            "lyndon_array" => replied(sirbolta_lyndon_array(table, m, work, w, words, k)),
            "to_signed" => replied(sirbolta_to_signed(table, m, work, w, words, k)),
            "to_steps" => replied(sirbolta_to_steps(text, n, bytes, b)),
            "from_steps" => replied(sirbolta_from_steps(text, n, bytes, b)),
            "build_profile" => replied(sirbolta_build_profile(text, n, CHAIR, work, w, words, k)),
            "check_profile" => replied(sirbolta_check_profile(table, m, work, w)),
            "census" => replied(sirbolta_census(table, m, p, work, w, bytes, b, words, k)),
            "lists" => {
                let list = |sample: u8| sirbolta_locate(table, m, 0, &sample, 1, work, w, words, k).count;
                baseline::done((0..=255).map(list).sum::<u64>() as usize, 0).into()
            }
            service => panic!("no service {service}"),
        }
    }
}

fn replied(r: Reply) -> Found {
    (r.number, r.place, r.count, r.chair).into()
}

fn found(r: SearchReply) -> Found {
    Found { answer: (r.number, r.place, r.count, r.chair), tests: r.tests }
}

#[no_mangle]
#[inline(never)]
fn measured_rust(given: &Given, lent: &mut Lent) -> Found {
    let Given { service, text, table, form, pattern } = given;
    let Lent { work, words, bytes } = lent;
    match service.as_str() {
        "build" => baseline::build(text, CHAIR, work, words).into(),
        "check" | "doubling" => tables::check(table, work).into(),
        "read" => tables::read(table, work, bytes).into(),
        "copied" => tables::copied(table, work, bytes).into(),
        "extract" => tables::extract(table, 0, text.len(), work, bytes).into(),
        "count" => search::count(table, *form, pattern, work),
        "locate" => search::locate(table, *form, pattern, work, words),
        "cuts" => search::live_cuts(pattern, words).into(),
        "lyndon_length" => tables::lyndon_length(table, 0, work).into(),
        "lyndon_array" => tables::lyndon_array(table, work, words).into(),
        "to_signed" => tables::to_signed(table, work, words).into(),
        "to_steps" => steps::to_steps(text, bytes).into(),
        "from_steps" => steps::from_steps(text, bytes).into(),
        "build_profile" => profile::build_profile(text, CHAIR, work, words).into(),
        "check_profile" => profile::check_profile(table, work).into(),
        "census" => census::census(table, pattern.len(), work, bytes, words).into(),
        "lists" => census::lists(table, work, words).into(),
        service => panic!("no service {service}"),
    }
}

fn main() {
    let args: Vec<String> = std::env::args().collect();
    let number = |i: usize| args.get(i).map_or(0, |s| s.parse::<usize>().unwrap());
    let (family, size) = (number(3), number(4));
    let (service, way) = args[2].split_once(':').unwrap_or((&args[2], ""));
    let mut text = texts::text(family, size.min(2047));
    let mut pattern = pattern(&text, number(5), args.get(6).map(String::as_str));
    if service == "compared" {
        return println!("{}", compared::compared(&pattern));
    }
    if way != "" || service == "from_steps" {
        text = rearranged(&text);
    }
    if way == "samples" {
        pattern = rearranged(&pattern)[1..].to_vec();
    }
    let table = match service {
        "doubling" => doubling(size as u32),
        "to_signed" => former_table(&text, table_of),
        _ => table_of(&text),
    };
    let given = Given { service: service.to_string(), text, table, form: (way == "steps") as u32, pattern };
    let mut lent = lent();
    let measured = if args[1] == "library" { measured_library } else { measured_rust };
    let Found { answer, tests } = measured(&given, &mut lent);
    let (work, words, bytes) = (checksum(&lent.work), checksum(&lent.words), checksum(&lent.bytes));
    println!("{} {} {answer:?} {tests} {work} {words} {bytes}", given.service, texts::FAMILIES.get(family).unwrap_or(&"a repeated block"));
}

fn pattern(text: &[u8], m: usize, kind: Option<&str>) -> Vec<u8> {
    match kind {
        None => texts::middle(text, m),
        Some("nested") => inputs::nested(*text.iter().min_by_key(|x| **x as i8).unwrap(), m),
        Some(kind) => match kind.strip_prefix('@') {
            Some(i) => text[i.parse().unwrap()..][..m].to_vec(),
            None => differing(kind.parse().unwrap(), m),
        },
    }
}

/// m samples that differ from equal ones behind the k-th, but for the last: a^k, b and a.
fn differing(k: usize, m: usize) -> Vec<u8> {
    let mut s = vec![b'a'; k];
    s.resize(m - 1, b'b');
    s.push(b'a');
    s
}

fn table_of(text: &[u8]) -> Vec<u32> {
    let mut lent = lent();
    let (_, _, words, _) = baseline::build(text, CHAIR, &mut lent.work, &mut lent.words);
    lent.words.truncate(words as usize);
    lent.words
}

/// A drive rearranged: its first sample, then its steps.
fn rearranged(drive: &[u8]) -> Vec<u8> {
    let mut s = vec![0; drive.len()];
    steps::rearrange(drive, &mut s);
    s
}

/// A table of so many rules, in shape, whose strings double from rule to rule and which no text has.
fn doubling(n: u32) -> Vec<u32> {
    let pair = |x: u32, y: u32| [(1 << 30) + x, (2 << 30) + y];
    let mut rules = vec![[0, (3 << 30) + CHAIR as u32], [b'a' as u32 + 1, 3 << 30]];
    rules.extend((2..n - 1).map(|k| pair(k - 1, k - 1)));
    rules.push(pair(0, n - 2));
    rules.concat()
}

fn checksum<T: Copy + Into<u64>>(s: &[T]) -> u64 {
    s.iter().fold(7, |h: u64, &x| h.wrapping_mul(1099511628211).wrapping_add(x.into()))
}
