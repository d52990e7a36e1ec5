//! Tests the Rust module: every case of vector files that calls a service, and every refusal by its name. `binding FILE..`.

mod calls;
mod former;
#[path = "../bindings/rust/sirbolta.rs"]
mod sirbolta;
mod vector_file;

use calls::*;
use former::former_table;
use sirbolta::{Content, Reading, Refusal, Search, CUTS, RUNS, SAMPLES, TABLE, WORK};
use vector_file::{cases, Test};

fn main() {
    let agreed: usize = std::env::args().skip(1).map(|file| agreeing(&file)).sum();
    assert!(agreed > 0, "usage: binding FILE..");
    every_refusal();
    largest();
    println!("rust module: {agreed} cases agree, {REFUSALS} refusals by name");
}

/// How many cases of a file call a service. All of them agree, or the run ends.
fn agreeing(file: &str) -> usize {
    let mut agreed = 0;
    for case in cases(&std::fs::read_to_string(file).unwrap()).unwrap() {
        if let Test::Service { call, lent, want } = &case.test {
            if let Some(wrong) = difference(&serve(call, lent), want) {
                println!("rust module: {file}: case {}: {wrong}", case.number);
                std::process::exit(1);
            }
            agreed += 1;
        }
    }
    agreed
}

/// What the module answers and leaves.
fn serve(call: &Call, lent: &Slices) -> (Outcome, Slices) {
    let mut left = lent.clone();
    let Slices { work, words, bytes } = &mut left;
    let content = if call.by_steps() { Content::Steps } else { Content::Samples };
    let answer = match call {
        Call::Build { text, chair } => sirbolta::build(text, *chair, work, words),
        Call::Check { table } => sirbolta::check(table, work),
        Call::Extract { table, start, length } => sirbolta::extract(table, *start, *length, work, bytes),
        Call::Cuts { pattern } => sirbolta::live_cuts(pattern, words),
        Call::LyndonLength { table, position } => sirbolta::lyndon_length(table, *position, work),
        Call::LyndonArray { table } => sirbolta::lyndon_array(table, work, words),
        Call::ToSigned { table } => sirbolta::to_signed(table, work, words),
        Call::ToSteps { text } => sirbolta::to_steps(text, bytes),
        Call::FromSteps { text } => sirbolta::from_steps(text, bytes),
        Call::BuildProfile { text, chair } => sirbolta::build_profile(text, *chair, work, words),
        Call::CheckProfile { table } => sirbolta::check_profile(table, work),
        Call::Census { table, q } => sirbolta::census(table, *q, work, bytes, words),
        Call::Read { table } => return (outcome(sirbolta::read(table, work, bytes), |read| (read.samples, read.chair, 0)), left),
        Call::Count { table, pattern, .. } => {
            let count = sirbolta::count(table, content, pattern, &mut work.clone());
            return (searched(sirbolta::count_with_tests(table, content, pattern, work), count), left);
        }
        Call::Locate { table, pattern, .. } => {
            let count = sirbolta::locate(table, content, pattern, &mut work.clone(), &mut words.clone());
            return (searched(sirbolta::locate_with_tests(table, content, pattern, work, words), count), left);
        }
    };
    (outcome(answer, |count| (count, 0, 0)), left)
}

/// The outcome of a search with its tests; the one without answers the same count or refusal.
fn searched(answer: Result<Search, Refusal>, count: Result<usize, Refusal>) -> Outcome {
    assert_eq!(answer.map(|search| search.count), count);
    outcome(answer, |search| (search.count, 0, search.tests))
}

/// A refusal, or what `numbers` makes of an answer: its count, chair number and tests.
fn outcome<T>(answer: Result<T, Refusal>, numbers: impl FnOnce(T) -> (usize, u16, usize)) -> Outcome {
    match answer.map(numbers) {
        Ok((count, chair, tests)) => Outcome { number: 0, place: 0, count: count as u64, chair: chair as u32, tests: tests as u64 },
        Err(refusal) => Outcome { number: refusal.number(), place: refusal.place() as u64, count: 0, chair: 0, tests: 0 },
    }
}

/// The largest table, also converted, the most positions, the most tests, the most cuts, the most and longest Lyndon words, the longest drive rearranged and
/// restored, the longest profile drive, and the censuses with the most bytes and the most runs, in slices of the lengths that the module names.
fn largest() {
    let mut work = vec![7; WORK];
    let mut result = vec![7; TABLE];
    let mut bytes = vec![7; SAMPLES];
    let text: Vec<u8> = (0..2047i32).map(|i| (i / 8 - 128) as u8).collect();
    assert_eq!(sirbolta::build(&text, 65535, &mut work, &mut result), Ok(4608));
    assert_eq!(sirbolta::read(&result, &mut work, &mut bytes), Ok(Reading { samples: 2047, chair: 65535 }));
    assert_eq!(bytes, text);
    let mut entries = vec![7; SAMPLES];
    assert_eq!(sirbolta::lyndon_length(&result, 0, &mut work), Ok(2047));
    assert_eq!(sirbolta::lyndon_array(&result, &mut work, &mut entries), Ok(2047));
    assert!(entries.iter().copied().eq((8..=2047).rev().chain([1; 7])));
    let (table, former) = (result.clone(), former_table(&text, table_of));
    result.fill(7);
    assert_eq!(sirbolta::check(&former, &mut work), Err(Refusal::NotATable));
    assert_eq!(sirbolta::to_signed(&table, &mut work, &mut result), Err(Refusal::NotATable));
    assert_eq!(sirbolta::to_signed(&former, &mut work, &mut result), Ok(4608));
    assert_eq!(result, table);
    let words = sirbolta::build(&[0; 2047], 0, &mut work, &mut result).unwrap();
    let table = &result[..words];
    assert_eq!(sirbolta::locate(table, Content::Samples, &[0], &mut work, &mut entries), Ok(2047));
    assert!(entries.iter().copied().eq(0..2047));
    let most = Ok(Search { count: 2046, tests: 2047 });
    assert_eq!(sirbolta::count_with_tests(table, Content::Samples, &[0; 2], &mut work), most);
    assert_eq!(sirbolta::locate_with_tests(table, Content::Samples, &[0; 2], &mut work, &mut entries), most);
    assert_eq!(sirbolta::locate_with_tests(table, Content::Steps, &[9; 2], &mut work, &mut entries), Ok(Search { count: 2046, tests: 0 }));
    assert!(entries.iter().copied().take(2046).eq(0..2046));
    assert_eq!(sirbolta::count(table, Content::Steps, &[9; 2047], &mut work), Ok(1));
    let word = b"bcdefghij".iter().fold(b"aa".to_vec(), |word, &sample| [&word[..], &[sample], &word[..]].concat());
    let pattern = [b"z", &word[..]].concat();
    let mut cuts = [7; CUTS];
    assert_eq!(sirbolta::live_cuts(&pattern, &mut cuts[1..]), Err(Refusal::ResultTooShort { needed: 11 }));
    assert_eq!(sirbolta::live_cuts(&pattern, &mut cuts), Ok(11));
    assert_eq!(cuts.map(|cut| 1536 - cut), [1535, 767, 383, 191, 95, 47, 23, 11, 5, 2, 1]);
    let mut steps = vec![7; SAMPLES];
    assert_eq!(sirbolta::to_steps(&text, &mut steps), Ok(2047));
    assert!(steps.iter().copied().eq((0..2047).map(|i| if i == 0 { 128 } else { (i % 8 == 0) as u8 })));
    assert_eq!(sirbolta::from_steps(&steps, &mut bytes), Ok(2047));
    assert_eq!(bytes, text);
    let mut drive: Vec<u8> = (0..2047u32).map(|i| (i * i / 7 % 9) as u8).collect();
    drive[2046] = 0;
    let words = sirbolta::build_profile(&drive, 65535, &mut work, &mut result).unwrap();
    assert_eq!(result[..words], table_of(&drive));
    assert_eq!(sirbolta::check_profile(&result[..words], &mut work), Ok(words / 2));
    drive[2045] = 9;
    assert_eq!(sirbolta::check_profile(&table_of(&drive), &mut work), Err(Refusal::OffHeading { at: 2045 }));
    let (table, mut runs) = (table_of(&text), vec![7; RUNS]);
    assert_eq!(sirbolta::census(&table, 8, &mut work, &mut runs[1..], &mut entries), Err(Refusal::ResultTooShort { needed: 2040 }));
    assert_eq!(sirbolta::census(&table, 8, &mut work, &mut runs, &mut entries[..2039]), Err(Refusal::ResultTooShort { needed: 2040 }));
    assert_eq!(sirbolta::census(&table, 8, &mut work, &mut runs, &mut entries), Ok(2040));
    assert_eq!(runs, text.windows(8).flatten().copied().collect::<Vec<u8>>()); // it rises, so its runs do
    assert_eq!(entries[..2040], [1; 2040]);
    let pairs: Vec<u8> = (0..2047u32).scan(0, |sample: &mut u8, i| Some(std::mem::replace(sample, sample.wrapping_add(2 * (i / 256) as u8 + 1)))).collect();
    assert_eq!(sirbolta::census(&table_of(&pairs), 2, &mut work, &mut runs, &mut entries), Ok(2046));
    assert_eq!(entries[..2046], [1; 2046]);
}

/// The table of a text and the largest chair number.
fn table_of(text: &[u8]) -> Vec<u32> {
    let mut table = vec![7; TABLE];
    let words = sirbolta::build(text, 65535, &mut vec![7; WORK], &mut table).unwrap();
    table.truncate(words);
    table
}

fn every_refusal() {
    let mut work = vec![7; WORK];
    let mut result = vec![7; TABLE];
    let mut bytes = vec![7; SAMPLES];
    let words = sirbolta::build(b"aaaa", 40, &mut work, &mut result).unwrap();
    let table = result[..words].to_vec();
    let answers = [
        sirbolta::build(&[0; 2048], 40, &mut work, &mut result),
        sirbolta::count(&table, Content::Samples, b"", &mut work),
        sirbolta::live_cuts(&[0; 2048], &mut result),
        sirbolta::check(&table, &mut work[1..]),
        sirbolta::check(&table[1..], &mut work),
        sirbolta::check(&[0, 3 << 30, 257, 3 << 30], &mut work),
        sirbolta::check(&[98, 3 << 30], &mut work),
        sirbolta::extract(&table, 3, usize::MAX, &mut work, &mut bytes),
        sirbolta::locate(&table, Content::Samples, b"aa", &mut work, &mut result[..2]),
        sirbolta::count(&table, Content::Steps, b"a", &mut work),
        sirbolta::build_profile(&[1, 0, 9, 255], 40, &mut work, &mut result),
        sirbolta::build_profile(&[0, 8], 40, &mut work, &mut result),
        sirbolta::census(&table, 9, &mut work, &mut bytes, &mut result),
    ];
    let names = [
        Refusal::TextTooLong,
        Refusal::PatternEmpty,
        Refusal::PatternTooLong,
        Refusal::WorkTooShort,
        Refusal::TableLength,
        Refusal::BadWord { at: 2 },
        Refusal::NotATable,
        Refusal::RangePastEnd,
        Refusal::ResultTooShort { needed: 3 },
        Refusal::NoStep,
        Refusal::OffHeading { at: 2 },
        Refusal::NotAtRest,
        Refusal::OddWindow,
    ];
    assert_eq!(names.len(), REFUSALS);
    for (i, (answer, name)) in answers.into_iter().zip(names).enumerate() {
        assert_eq!(answer, Err(name));
        assert_eq!(name.number() as usize, i + 1);
        assert!(name.to_string().starts_with(&format!("refused {}: ", i + 1)));
    }
    assert_eq!(sirbolta::lyndon_length(&table, 4, &mut work), Err(Refusal::RangePastEnd));
    assert_eq!(sirbolta::lyndon_array(&table, &mut work, &mut result[..3]), Err(Refusal::ResultTooShort { needed: 4 }));
    assert_eq!(sirbolta::to_signed(&table, &mut work, &mut result[..11]), Err(Refusal::ResultTooShort { needed: 12 }));
    assert_eq!(sirbolta::locate(&table, Content::Steps, b"a", &mut work[1..], &mut result), Err(Refusal::NoStep));
    assert_eq!(sirbolta::to_steps(b"aaaa", &mut bytes[..3]), Err(Refusal::ResultTooShort { needed: 4 }));
    assert_eq!(sirbolta::from_steps(&[0; 2048], &mut bytes), Err(Refusal::TextTooLong));
    assert_eq!(sirbolta::build_profile(&[9; 2048], 40, &mut work, &mut result), Err(Refusal::TextTooLong));
    assert_eq!(sirbolta::build_profile(&[], 40, &mut work[1..], &mut result), Err(Refusal::NotAtRest));
    assert_eq!(sirbolta::build_profile(&[0, 1, 0], 40, &mut work, &mut result[..11]), Err(Refusal::ResultTooShort { needed: 12 }));
    assert_eq!(sirbolta::check_profile(&table, &mut work), Err(Refusal::OffHeading { at: 0 }));
    assert_eq!(sirbolta::check_profile(&table, &mut work[1..]), Err(Refusal::WorkTooShort));
    assert_eq!(sirbolta::census(&[], usize::MAX, &mut [], &mut [], &mut []), Err(Refusal::OddWindow));
    assert_eq!(sirbolta::census(&[], 1, &mut work, &mut bytes, &mut result), Err(Refusal::TableLength));
    assert_eq!(sirbolta::census(&table, 2, &mut work, &mut bytes[..1], &mut result), Err(Refusal::ResultTooShort { needed: 1 }));
    assert_eq!(sirbolta::census(&table, 2, &mut work, &mut bytes, &mut []), Err(Refusal::ResultTooShort { needed: 1 }));
    assert_eq!(sirbolta::read(&table, &mut work, &mut bytes), Ok(Reading { samples: 4, chair: 40 }));
    assert_eq!(&bytes[..5], b"aaaa\x07");
}
