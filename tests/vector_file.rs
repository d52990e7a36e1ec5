//! Reads the cases of a vector file, strictly: a line that vectors/README.md does not describe is an error.
#![allow(dead_code)]

use crate::calls::*;
use std::collections::HashMap;
use std::str::FromStr;

pub struct Case {
    pub number: usize,
    pub test: Test,
}

pub enum Test {
    /// A call, the slices lent to it, and what it is to answer and leave.
    Service { call: Call, lent: Slices, want: (Outcome, Slices) },
    /// A program by its name, what it reads, and what it is to print.
    Program { name: String, stdin: Vec<u8>, stdout: Vec<u8> },
}

/// The lines of one case: its items by their first words, such as `arg table`.
type Items<'a> = HashMap<String, &'a str>;

pub fn cases(file: &str) -> Result<Vec<Case>, String> {
    let mut cases = Vec::new();
    let mut lines = file.lines().filter(|line| !line.is_empty() && !line.starts_with('#'));
    while let Some(line) = lines.next() {
        let number = number_of(line.strip_prefix("case ").ok_or(format!("no case begins with {line:.40}"))?)?;
        let body: Vec<&str> = lines.by_ref().take_while(|&line| line != "end").collect();
        let test = items(&body).and_then(test).map_err(|wrong| format!("case {number}: {wrong}"))?;
        cases.push(Case { number, test });
    }
    Ok(cases)
}

fn items<'a>(lines: &[&'a str]) -> Result<Items<'a>, String> {
    let mut items = Items::new();
    for line in lines {
        let (first, rest) = line.split_once(' ').ok_or(format!("a lone word: {line}"))?;
        let (name, value) = match first {
            "stage" | "call" | "want" | "stdout" => (first.to_string(), rest),
            "arg" | "lend" | "after" => {
                let (key, value) = rest.split_once(' ').ok_or(format!("no value: {line}"))?;
                (format!("{first} {key}"), value)
            }
            _ => return Err(format!("unknown line: {line:.40}")),
        };
        if items.insert(name, value).is_some() {
            return Err(format!("twice: {line:.40}"));
        }
    }
    Ok(items)
}

fn test(mut items: Items) -> Result<Test, String> {
    if take(&mut items, "stage")? != "8" {
        return Err("an unknown stage".into());
    }
    let test = match take(&mut items, "call")? {
        "program" => Test::Program {
            name: take(&mut items, "arg name")?.into(),
            stdin: entries(take(&mut items, "arg stdin")?)?,
            stdout: hex(take(&mut items, "stdout")?)?,
        },
        service => {
            let call = call(service, &mut items)?;
            let lent = lent(&call, &mut items)?;
            let want = (outcome(&call, take(&mut items, "want")?)?, left(&call, &lent, &mut items)?);
            Test::Service { call, lent, want }
        }
    };
    match items.keys().next() {
        None => Ok(test),
        Some(name) => Err(format!("{name} is not expected here")),
    }
}

fn call(service: &str, items: &mut Items) -> Result<Call, String> {
    let number = |items: &mut Items, key: &str| take(items, key).and_then(number_of::<usize>);
    Ok(match service {
        "build" => {
            let (text, chair) = (entries(take(items, "arg drive")?)?, take(items, "arg chair").and_then(number_of)?);
            match profile(items)? {
                true => Call::BuildProfile { text, chair },
                false => Call::Build { text, chair },
            }
        }
        "cuts" => Call::Cuts { pattern: entries(take(items, "arg motif")?)? },
        "rearrange" => {
            let text = entries(take(items, "arg drive")?)?;
            match bit(take(items, "arg inverse")?)? {
                0 => Call::ToSteps { text },
                _ => Call::FromSteps { text },
            }
        }
        _ => {
            let table: Vec<u32> = entries(take(items, "arg table")?)?;
            match service {
                "check" => match profile(items)? {
                    true => Call::CheckProfile { table },
                    false => Call::Check { table },
                },
                "read" => Call::Read { table },
                "part" => Call::Extract { table, start: number(items, "arg start")?, length: number(items, "arg length")? },
                "count" => Call::Count { table, form: form(items)?, pattern: entries(take(items, "arg motif")?)? },
                "list" => Call::Locate { table, form: form(items)?, pattern: entries(take(items, "arg motif")?)? },
                "longest" => Call::LyndonLength { table, position: number(items, "arg position")? },
                "longest_all" => Call::LyndonArray { table },
                "convert_order" => Call::ToSigned { table },
                "census" => Call::Census { table, q: number(items, "arg q")? },
                _ => return Err(format!("an unknown call: {service}")),
            }
        }
    })
}

/// Whether a table is built or checked in the profile: then the case says so by a 1, else it says nothing.
fn profile(items: &mut Items) -> Result<bool, String> {
    match items.remove("arg profile") {
        None => Ok(false),
        Some("1") => Ok(true),
        Some(digits) => Err(format!("arg profile {digits:.40}")),
    }
}

fn form(items: &mut Items) -> Result<u32, String> {
    Ok(bit(take(items, "arg steps")?)? * STEPS)
}

/// The names and units of the service's result slices.
fn results(call: &Call) -> &'static [(&'static str, &'static str)] {
    match call {
        Call::Build { .. } | Call::BuildProfile { .. } | Call::Locate { .. } | Call::Cuts { .. } => &[("result", "words")],
        Call::LyndonArray { .. } | Call::ToSigned { .. } => &[("result", "words")],
        Call::Read { .. } | Call::Extract { .. } | Call::ToSteps { .. } | Call::FromSteps { .. } => &[("result", "bytes")],
        Call::Check { .. } | Call::CheckProfile { .. } | Call::Count { .. } | Call::LyndonLength { .. } => &[],
        Call::Census { .. } => &[("result", "bytes"), ("result2", "words")],
    }
}

fn has_work(call: &Call) -> bool {
    !matches!(call, Call::Cuts { .. } | Call::ToSteps { .. } | Call::FromSteps { .. })
}

fn lent(call: &Call, items: &mut Items) -> Result<Slices, String> {
    let mut length = |slice: &str, unit: &str| -> Result<usize, String> {
        let value = take(items, &format!("lend {slice}"))?;
        let value = value.strip_prefix(unit).ok_or(format!("lend {slice} {value}: not {unit}"))?;
        number_of(value.trim_start())
    };
    let mut lent = Slices::default();
    if has_work(call) {
        lent.work = vec![0xA5A5A5A5; length("work", "words")?];
    }
    for &(slice, unit) in results(call) {
        match unit {
            "words" => lent.words = vec![0xA5A5A5A5; length(slice, unit)?],
            _ => lent.bytes = vec![0xA5; length(slice, unit)?],
        }
    }
    Ok(lent)
}

/// The slices afterwards.
fn left(call: &Call, lent: &Slices, items: &mut Items) -> Result<Slices, String> {
    let mut left = lent.clone();
    if has_work(call) {
        match take(items, "after work")? {
            "same" => {}
            "zero" => left.work.get_mut(..16384).ok_or("a work slice too short to be cleared")?.fill(0),
            after => return Err(format!("after work {after}")),
        }
    }
    for &(slice, unit) in results(call) {
        let after = take(items, &format!("after {slice}"))?;
        match (after.strip_prefix("front "), unit) {
            (Some(front), "words") => place(&hex(front)?, &mut left.words)?,
            (Some(front), _) => place(&hex(front)?, &mut left.bytes)?,
            (None, _) if after == "same" => {}
            (None, _) => return Err(format!("after {slice} {after:.40}")),
        }
    }
    Ok(left)
}

fn place<T: Copy>(front: &[T], slice: &mut [T]) -> Result<(), String> {
    let there = slice.get_mut(..front.len()).ok_or("a result longer than its slice")?;
    there.copy_from_slice(front);
    Ok(())
}

/// A search has its number of tests, and no other call has.
fn outcome(call: &Call, want: &str) -> Result<Outcome, String> {
    let searches = matches!(call, Call::Count { .. } | Call::Locate { .. });
    let (number, place, count, chair, tests) = match want.split(' ').collect::<Vec<_>>()[..] {
        ["no", number, "place", place, "count", count, "tests", tests] if searches => (number, place, count, "0", tests),
        ["no", number, "place", place, "count", count] if !searches => (number, place, count, "0", "0"),
        ["no", number, "place", place, "count", count, "chair", chair] if !searches => (number, place, count, chair, "0"),
        _ => return Err(format!("want {want}")),
    };
    let (chair, tests) = (number_of(chair)?, number_of(tests)?);
    Ok(Outcome { number: number_of(number)?, place: number_of(place)?, count: number_of(count)?, chair, tests })
}

fn take<'a>(items: &mut Items<'a>, name: &str) -> Result<&'a str, String> {
    items.remove(name).ok_or(format!("no {name}"))
}

fn number_of<T: FromStr>(digits: &str) -> Result<T, String> {
    digits.parse().map_err(|_| format!("no number: {digits:.40}"))
}

fn bit(digit: &str) -> Result<u32, String> {
    match digit {
        "0" => Ok(0),
        "1" => Ok(1),
        _ => Err(format!("neither 0 nor 1: {digit:.40}")),
    }
}

/// Entries written as LEN/OFF:HEX;OFF:HEX, all 0 but the runs.
fn entries<T: Hex>(value: &str) -> Result<Vec<T>, String> {
    let (length, runs) = value.split_once('/').ok_or(format!("no length: {value:.40}"))?;
    let mut entries = vec![T::default(); number_of(length)?];
    for run in runs.split(';').filter(|run| !run.is_empty()) {
        let (offset, digits) = run.split_once(':').ok_or(format!("no offset: {run:.40}"))?;
        let rest = entries.get_mut(number_of::<usize>(offset)?..).ok_or("a run past the end")?;
        place(&hex(digits)?, rest)?;
    }
    Ok(entries)
}

/// A byte or a word, of two or eight hexadecimal digits.
trait Hex: Copy + Default {
    const DIGITS: usize;
    fn of(digits: &str) -> Option<Self>;
}

impl Hex for u8 {
    const DIGITS: usize = 2;
    fn of(digits: &str) -> Option<u8> {
        u8::from_str_radix(digits, 16).ok()
    }
}

impl Hex for u32 {
    const DIGITS: usize = 8;
    fn of(digits: &str) -> Option<u32> {
        u32::from_str_radix(digits, 16).ok()
    }
}

fn hex<T: Hex>(digits: &str) -> Result<Vec<T>, String> {
    let digits = if digits == "-" { "" } else { digits };
    let parts = digits.as_bytes().chunks(T::DIGITS).map(|part| std::str::from_utf8(part).ok().filter(|part| part.len() == T::DIGITS));
    parts.map(|part| part.and_then(T::of)).collect::<Option<_>>().ok_or(format!("no digits: {digits:.40}"))
}
