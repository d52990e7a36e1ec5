//! Builds a table, checks it, reads it back and searches it.

mod sirbolta;

use sirbolta::{Content, Refusal, SAMPLES, TABLE, WORK};

fn main() -> Result<(), Refusal> {
    let mut work = vec![0; WORK];
    let mut words = vec![0; TABLE];
    let used = sirbolta::build(b"abab", 40, &mut work, &mut words)?;
    let table = &words[..used];
    println!("{} rules", sirbolta::check(table, &mut work)?);

    let mut drive = vec![0; SAMPLES];
    let reading = sirbolta::read(table, &mut work, &mut drive)?;
    println!("chair {}, {} samples", reading.chair, reading.samples);

    let mut positions = vec![0; SAMPLES];
    let found = sirbolta::locate_with_tests(table, Content::Samples, b"ab", &mut work, &mut positions)?;
    println!("ab begins at {:?}", &positions[..found.count]);
    println!("{} tests", found.tests);

    if let Err(refusal) = sirbolta::extract(table, 4, 1, &mut work, &mut drive) {
        println!("{refusal}");
    }
    Ok(())
}
