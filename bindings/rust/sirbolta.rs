//! The services of the proved library, for safe Rust: slices in, and a count or the refusal by its name out. It wants the static library that
//! `bindings/build` makes: `rustc -L target/staticlib -l static=capi`; the package's crate links it by itself. Every call is sound, since Rust's slices
//! are what the library asks for: valid, aligned, and where they are lent for writing, apart from all others. A search that is also to say how many tests it made
//! is `count_with_tests` or `locate_with_tests`.
//!
//! The work slice needs `WORK` words, the result slice as many entries as the result has; what they held before plays no part. On success the result
//! stands at the front of the result slice and the rest is as it was; after a refusal all of it is as it was. A census has two, of which the same holds: where
//! either is too short, both are as they were. The work slice is as it was after `WorkTooShort`, `TableLength`, `BadWord` and any refusal whose check comes
//! before these, so also after `OffHeading` and `NotAtRest` of `build_profile`; after the others, so also after these two of `check_profile`, and after success
//! its first `WORK` words are 0 and the rest is as it was. Reading back and locating take up to 240 KiB of stack, a census up to 280, every other service less
//! than 4 KiB: a thread for these three wants a stack above that, as Rust's own have.
//!
//! Samples are compared as signed numbers, a byte of 128 or more meaning itself minus 256. A former table is one that was built while they were compared as
//! unsigned numbers. `to_signed` takes former tables and no others; to every other function they are `NotATable`, unless all samples of the text are below 128
//! or none is: the two orders then give the same table.
//!
//! A drive may be rearranged to steps before its table is built: the first sample is kept, and each later one becomes a step, its difference from the one before,
//! modulo 256. The table does not say that it holds steps; the caller says so, by `Content`, to the functions that search. Every other function takes the text as
//! it stands.
//!
//! A profile drive is that of a switch joystick: byte 0 is rest, 1 to 8 are the headings. It is not empty, begins and ends at rest, and has no byte above 8, read
//! as an unsigned number. A profile table is the table of such a drive, and every function takes it. `build_profile` and `check_profile` refuse all other drives
//! and tables.
//!
//! A program with a library of another interface number ends before `main` and says so.
#![allow(dead_code)]

use std::fmt;

/// The number of the interface that this module is made for.
pub const INTERFACE: u32 = 3;

/// The words that a work slice needs.
pub const WORK: usize = 16_384;

/// The most samples of a text or a pattern: no result but a table and the runs of a census has more entries.
pub const SAMPLES: usize = 2_047;

/// The most words of a table.
pub const TABLE: usize = 4_608;

/// The most cuts that `live_cuts` writes.
pub const CUTS: usize = 11;

/// The most bytes that the runs of a census have: 2,040 runs of 8 samples.
pub const RUNS: usize = 16_320;

/// What a table holds, as the caller of a search says.
#[derive(Clone, Copy, Debug, PartialEq, Eq)]
pub enum Content {
    /// The samples of a drive as it was recorded.
    Samples,
    /// What `to_steps` writes. A pattern of m samples is then searched by its m - 1 steps, and found at each position of the drive, as it was before it was
    /// rearranged, from which the same steps follow: in 5, 7, 9, 3, 5 the pattern 0, 2 is found at 0, 1 and 3. The kept first sample is never a step. Cuts and
    /// tests are those of the m - 1 steps, taken as a pattern.
    Steps,
}

/// Why a service refuses: the first check that is met.
#[derive(Clone, Copy, Debug, PartialEq, Eq)]
#[non_exhaustive]
pub enum Refusal {
    TextTooLong,
    PatternEmpty,
    PatternTooLong,
    WorkTooShort,
    TableLength,
    BadWord {
        /// The lowest index of a bad word.
        at: usize,
    },
    NotATable,
    RangePastEnd,
    ResultTooShort {
        /// How many entries the result has; of a census, how many runs there are.
        needed: usize,
    },
    /// It comes behind `PatternTooLong` and before `WorkTooShort`.
    NoStep,
    /// It comes behind `TextTooLong` and before `WorkTooShort` when building, and behind `NotATable` when checking.
    OffHeading {
        /// The lowest index of a byte above 8.
        at: usize,
    },
    /// It comes behind `OffHeading`.
    NotAtRest,
    /// It comes before `WorkTooShort`.
    OddWindow,
}

/// A text read back: how many samples were written, and the chair number.
#[derive(Clone, Copy, Debug, PartialEq, Eq)]
pub struct Reading {
    pub samples: usize,
    pub chair: u16,
}

/// A search that is done: how many occurrences it counted or positions it wrote, and how many tests it made.
///
/// A test is a pair rule of the table, one with a left and a right half, together with a cut of the pattern that `live_cuts` lists, where the left half has at
/// least as many symbols as the pattern has samples before the cut, and the right half at least as many as it has from the cut on. Symbols are the samples and
/// the mark, which stands before them. A rule counts once, however often its string stands in the text. A pattern of one sample has no test; one of m samples in a
/// text of n has at most n + 2 - m, none where that would be negative. Where the table holds steps, the pattern's m - 1 steps are the pattern here: at most n + 3 - m.
#[derive(Clone, Copy, Debug, PartialEq, Eq)]
pub struct Search {
    pub count: usize,
    pub tests: usize,
}

/// Writes the table of a text and a chair number, and answers how many words it has.
pub fn build(text: &[u8], chair: u16, work: &mut [u32], result: &mut [u32]) -> Result<usize, Refusal> {
    let (w, n, r, m) = (work.as_mut_ptr(), work.len(), result.as_mut_ptr(), result.len());
    counted(unsafe { sirbolta_build(text.as_ptr(), text.len(), chair, w, n, r, m) })
}

/// Answers how many rules the table has, if it is that of some text and chair number.
pub fn check(table: &[u32], work: &mut [u32]) -> Result<usize, Refusal> {
    counted(unsafe { sirbolta_check(table.as_ptr(), table.len(), work.as_mut_ptr(), work.len()) })
}

/// Writes the text of a table.
pub fn read(table: &[u32], work: &mut [u32], result: &mut [u8]) -> Result<Reading, Refusal> {
    let (w, n, r, m) = (work.as_mut_ptr(), work.len(), result.as_mut_ptr(), result.len());
    let reply = unsafe { sirbolta_read(table.as_ptr(), table.len(), w, n, r, m) };
    let chair = reply.chair as u16;
    counted(reply).map(|samples| Reading { samples, chair })
}

/// Writes the part of the text that begins at `start` and has `length` samples, and answers `length`.
pub fn extract(table: &[u32], start: usize, length: usize, work: &mut [u32], result: &mut [u8]) -> Result<usize, Refusal> {
    let (w, n, r, m) = (work.as_mut_ptr(), work.len(), result.as_mut_ptr(), result.len());
    counted(unsafe { sirbolta_extract(table.as_ptr(), table.len(), start, length, w, n, r, m) })
}

/// How often the pattern begins in the text or, where the table holds steps, is found in the drive, overlapping occurrences included.
pub fn count(table: &[u32], content: Content, pattern: &[u8], work: &mut [u32]) -> Result<usize, Refusal> {
    count_with_tests(table, content, pattern, work).map(|search| search.count)
}

/// The same, and how many tests the search made.
pub fn count_with_tests(table: &[u32], content: Content, pattern: &[u8], work: &mut [u32]) -> Result<Search, Refusal> {
    let (p, k, w, n) = (pattern.as_ptr(), pattern.len(), work.as_mut_ptr(), work.len());
    searched(unsafe { sirbolta_count(table.as_ptr(), table.len(), content.form(), p, k, w, n) })
}

/// Writes the positions at which the pattern begins in the text or, where the table holds steps, is found in the drive, rising, and answers how many there are.
pub fn locate(table: &[u32], content: Content, pattern: &[u8], work: &mut [u32], result: &mut [u32]) -> Result<usize, Refusal> {
    locate_with_tests(table, content, pattern, work, result).map(|search| search.count)
}

/// The same, and how many tests the search made.
pub fn locate_with_tests(table: &[u32], content: Content, pattern: &[u8], work: &mut [u32], result: &mut [u32]) -> Result<Search, Refusal> {
    let (p, k, w, n) = (pattern.as_ptr(), pattern.len(), work.as_mut_ptr(), work.len());
    searched(unsafe { sirbolta_locate(table.as_ptr(), table.len(), content.form(), p, k, w, n, result.as_mut_ptr(), result.len()) })
}

/// Writes the live cuts of the pattern that a search tries, rising, at most `CUTS`, and answers how many there are.
///
/// A cut splits the pattern before a sample that is not the first; its tail is the samples from there on. It is live if its tail is not the greater where it
/// first differs from any other cut's tail. A live cut is left out if the samples from an earlier cut up to it are a Lyndon word, and its tail begins with that
/// word and is longer: where a pattern straddles the join of a rule's two halves, it is never cut there.
pub fn live_cuts(pattern: &[u8], result: &mut [u32]) -> Result<usize, Refusal> {
    counted(unsafe { sirbolta_live_cuts(pattern.as_ptr(), pattern.len(), result.as_mut_ptr(), result.len()) })
}

/// The length of the longest Lyndon word that begins at `position` in the text; `RangePastEnd` where it has no such position. A Lyndon word is not empty,
/// and smaller than each of its proper suffixes but the empty one; samples are compared as signed numbers, and a proper prefix is smaller.
pub fn lyndon_length(table: &[u32], position: usize, work: &mut [u32]) -> Result<usize, Refusal> {
    counted(unsafe { sirbolta_lyndon_length(table.as_ptr(), table.len(), position, work.as_mut_ptr(), work.len()) })
}

/// Writes the length of the longest Lyndon word that begins at each position of the text, and answers how many positions there are.
pub fn lyndon_array(table: &[u32], work: &mut [u32], result: &mut [u32]) -> Result<usize, Refusal> {
    let (w, n, r, m) = (work.as_mut_ptr(), work.len(), result.as_mut_ptr(), result.len());
    counted(unsafe { sirbolta_lyndon_array(table.as_ptr(), table.len(), w, n, r, m) })
}

/// Writes the table of the text and the chair number of a former table, and answers how many words it has; `NotATable` where no text and chair number has this
/// former table.
pub fn to_signed(table: &[u32], work: &mut [u32], result: &mut [u32]) -> Result<usize, Refusal> {
    let (w, n, r, m) = (work.as_mut_ptr(), work.len(), result.as_mut_ptr(), result.len());
    counted(unsafe { sirbolta_to_signed(table.as_ptr(), table.len(), w, n, r, m) })
}

/// Writes a drive rearranged to steps, its first sample and then the step to each later one, and answers how many samples it has.
pub fn to_steps(drive: &[u8], result: &mut [u8]) -> Result<usize, Refusal> {
    counted(unsafe { sirbolta_to_steps(drive.as_ptr(), drive.len(), result.as_mut_ptr(), result.len()) })
}

/// Writes the drive that `to_steps` rearranges to these steps, and answers how many samples it has.
pub fn from_steps(steps: &[u8], result: &mut [u8]) -> Result<usize, Refusal> {
    counted(unsafe { sirbolta_from_steps(steps.as_ptr(), steps.len(), result.as_mut_ptr(), result.len()) })
}

/// Writes the table of a profile drive and a chair number, which is what `build` writes of them, and answers how many words it has; `OffHeading` or `NotAtRest` where
/// the text is no profile drive.
pub fn build_profile(text: &[u8], chair: u16, work: &mut [u32], result: &mut [u32]) -> Result<usize, Refusal> {
    let (w, n, r, m) = (work.as_mut_ptr(), work.len(), result.as_mut_ptr(), result.len());
    counted(unsafe { sirbolta_build_profile(text.as_ptr(), text.len(), chair, w, n, r, m) })
}

/// Answers how many rules the table has, if it is that of some profile drive and chair number; `OffHeading` or `NotAtRest` where it is that of another text.
pub fn check_profile(table: &[u32], work: &mut [u32]) -> Result<usize, Refusal> {
    counted(unsafe { sirbolta_check_profile(table.as_ptr(), table.len(), work.as_mut_ptr(), work.len()) })
}

/// The census of the text: writes every run of `q` samples, 1 to 8, that stand in it one after the other, each run once, in the order of signed samples, `q` bytes each
/// to `runs`, and how often each begins in the text, overlapping ones included, to `counts`, and answers how many runs there are; `OddWindow` for any other `q`. The
/// counts add up to the text's length - q + 1, or to 0 where it has fewer than `q` samples. `RUNS` bytes and `SAMPLES` words are enough for every text.
pub fn census(table: &[u32], q: usize, work: &mut [u32], runs: &mut [u8], counts: &mut [u32]) -> Result<usize, Refusal> {
    let (w, n, r, m) = (work.as_mut_ptr(), work.len(), runs.as_mut_ptr(), runs.len());
    counted(unsafe { sirbolta_census(table.as_ptr(), table.len(), q, w, n, r, m, counts.as_mut_ptr(), counts.len()) })
}

impl Content {
    fn form(self) -> u32 {
        match self {
            Content::Samples => 0,
            Content::Steps => 1,
        }
    }
}

impl Refusal {
    /// The refusal's number.
    pub fn number(self) -> u32 {
        match self {
            Refusal::TextTooLong => 1,
            Refusal::PatternEmpty => 2,
            Refusal::PatternTooLong => 3,
            Refusal::WorkTooShort => 4,
            Refusal::TableLength => 5,
            Refusal::BadWord { .. } => 6,
            Refusal::NotATable => 7,
            Refusal::RangePastEnd => 8,
            Refusal::ResultTooShort { .. } => 9,
            Refusal::NoStep => 10,
            Refusal::OffHeading { .. } => 11,
            Refusal::NotAtRest => 12,
            Refusal::OddWindow => 13,
        }
    }

    /// The index of the bad word, the entries or runs needed, the index of the byte above 8, otherwise 0.
    pub fn place(self) -> usize {
        match self {
            Refusal::BadWord { at } | Refusal::OffHeading { at } => at,
            Refusal::ResultTooShort { needed } => needed,
            _ => 0,
        }
    }

    fn named(number: u32, place: usize) -> Refusal {
        match number {
            1 => Refusal::TextTooLong,
            2 => Refusal::PatternEmpty,
            3 => Refusal::PatternTooLong,
            4 => Refusal::WorkTooShort,
            5 => Refusal::TableLength,
            6 => Refusal::BadWord { at: place },
            7 => Refusal::NotATable,
            8 => Refusal::RangePastEnd,
            9 => Refusal::ResultTooShort { needed: place },
            10 => Refusal::NoStep,
            11 => Refusal::OffHeading { at: place },
            12 => Refusal::NotAtRest,
            13 => Refusal::OddWindow,
            _ => unreachable!("the library has no refusal {number}"),
        }
    }
}

impl fmt::Display for Refusal {
    fn fmt(&self, f: &mut fmt::Formatter) -> fmt::Result {
        write!(f, "refused {}: ", self.number())?;
        match self {
            Refusal::TextTooLong => write!(f, "the text has more than 2,047 samples"),
            Refusal::PatternEmpty => write!(f, "the pattern has no sample"),
            Refusal::PatternTooLong => write!(f, "the pattern has more than 2,047 samples"),
            Refusal::WorkTooShort => write!(f, "the work slice has fewer than 16,384 words"),
            Refusal::TableLength => write!(f, "the table has no word, an odd number of words, or more than 4,608"),
            Refusal::BadWord { at } => write!(f, "word {at} of the table is bad"),
            Refusal::NotATable => write!(f, "no text and chair number has this table, in the order by which it is judged"),
            Refusal::RangePastEnd => write!(f, "the range or position reaches past the end of the text"),
            Refusal::ResultTooShort { needed } => write!(f, "a result slice is too short: {needed} entries, or by a census {needed} runs, are needed"),
            Refusal::NoStep => write!(f, "the pattern has one sample, so no step by which to search a table that holds steps"),
            Refusal::OffHeading { at } => write!(f, "byte {at} of the text is above 8, so neither rest nor a heading"),
            Refusal::NotAtRest => write!(f, "the text is empty, or does not begin and end at rest"),
            Refusal::OddWindow => write!(f, "the runs of a census have 1 to 8 samples"),
        }
    }
}

impl std::error::Error for Refusal {}

fn counted(reply: Reply) -> Result<usize, Refusal> {
    match reply.number {
        0 => Ok(reply.count as usize),
        number => Err(Refusal::named(number, reply.place as usize)),
    }
}

fn searched(reply: SearchReply) -> Result<Search, Refusal> {
    match reply.number {
        0 => Ok(Search { count: reply.count as usize, tests: reply.tests as usize }),
        number => Err(Refusal::named(number, reply.place as usize)),
    }
}

/// The loader calls what stands in this section before `main`.
#[used]
#[link_section = ".init_array"]
static BEFORE_MAIN: extern "C" fn() = same_interface;

extern "C" fn same_interface() {
    let number = unsafe { sirbolta_interface() };
    if number != INTERFACE {
        eprintln!("the interface number of the library is {number}, that of the module {INTERFACE}");
        std::process::abort();
    }
}

#[repr(C)]
struct Reply {
    number: u32,
    chair: u32,
    place: u64,
    count: u64,
}

#[repr(C)]
struct SearchReply {
    number: u32,
    chair: u32,
    place: u64,
    count: u64,
    tests: u64,
}

#[rustfmt::skip]
unsafe extern "C" {
    fn sirbolta_interface() -> u32;
    fn sirbolta_build(text: *const u8, text_len: usize, chair: u16, work: *mut u32, work_len: usize, result: *mut u32, result_len: usize) -> Reply;
    fn sirbolta_check(table: *const u32, table_len: usize, work: *mut u32, work_len: usize) -> Reply;
    fn sirbolta_read(table: *const u32, table_len: usize, work: *mut u32, work_len: usize, result: *mut u8, result_len: usize) -> Reply;
    fn sirbolta_extract(table: *const u32, table_len: usize, start: usize, length: usize, work: *mut u32, work_len: usize, result: *mut u8, result_len: usize) -> Reply;
    fn sirbolta_count(table: *const u32, table_len: usize, form: u32, pattern: *const u8, pattern_len: usize, work: *mut u32, work_len: usize) -> SearchReply;
    fn sirbolta_locate(table: *const u32, table_len: usize, form: u32, pattern: *const u8, pattern_len: usize, work: *mut u32, work_len: usize, result: *mut u32, result_len: usize) -> SearchReply;
    fn sirbolta_live_cuts(pattern: *const u8, pattern_len: usize, result: *mut u32, result_len: usize) -> Reply;
    fn sirbolta_lyndon_length(table: *const u32, table_len: usize, position: usize, work: *mut u32, work_len: usize) -> Reply;
    fn sirbolta_lyndon_array(table: *const u32, table_len: usize, work: *mut u32, work_len: usize, result: *mut u32, result_len: usize) -> Reply;
    fn sirbolta_to_signed(table: *const u32, table_len: usize, work: *mut u32, work_len: usize, result: *mut u32, result_len: usize) -> Reply;
    fn sirbolta_to_steps(text: *const u8, text_len: usize, result: *mut u8, result_len: usize) -> Reply;
    fn sirbolta_from_steps(text: *const u8, text_len: usize, result: *mut u8, result_len: usize) -> Reply;
    fn sirbolta_build_profile(text: *const u8, text_len: usize, chair: u16, work: *mut u32, work_len: usize, result: *mut u32, result_len: usize) -> Reply;
    fn sirbolta_check_profile(table: *const u32, table_len: usize, work: *mut u32, work_len: usize) -> Reply;
    fn sirbolta_census(table: *const u32, table_len: usize, q: usize, work: *mut u32, work_len: usize, runs: *mut u8, runs_len: usize, counts: *mut u32, counts_len: usize) -> Reply;
}
