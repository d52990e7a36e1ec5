//! Runs the cases of vector files on the library and on the programs of a folder: `vectors FOLDER FILE..`. A case that disagrees, is of an unknown kind or
//! wants a program that is not there is printed and fails the run.

mod calls;
mod lending;
mod library;
mod vector_file;

use calls::*;
use std::io::Write;
use std::path::Path;
use std::process::{exit, Command, Stdio};
use vector_file::{cases, Case, Test};

/// The programs: what vector files call each, and its file.
const PROGRAMS: [(&str, &str); 3] = [("motif", "motif"), ("desk", "desk_report"), ("census", "census_report")];

fn main() {
    let arguments: Vec<String> = std::env::args().skip(1).collect();
    let Some((folder, files)) = arguments.split_first().filter(|(_, files)| !files.is_empty()) else {
        println!("usage: vectors FOLDER FILE..");
        exit(2);
    };
    for file in files {
        match run(file, Path::new(folder)) {
            Ok(counts) => println!("vectors: {file}: {counts}"),
            Err(wrong) => {
                println!("vectors: {file}: {wrong}");
                exit(1);
            }
        }
    }
}

/// How many cases agree, of which service or program.
fn run(file: &str, folder: &Path) -> Result<String, String> {
    let cases = cases(&std::fs::read_to_string(file).map_err(|wrong| wrong.to_string())?)?;
    let mut counts = [0; SERVICES.len() + PROGRAMS.len()];
    for case in &cases {
        let service = agrees(case, folder).map_err(|wrong| format!("case {}: {wrong}", case.number))?;
        counts[service] += 1;
    }
    if cases.is_empty() {
        return Err("no case".into());
    }
    let names = SERVICES.into_iter().chain(PROGRAMS.map(|(_, program)| program));
    let each: Vec<String> = names.zip(counts).map(|(name, count)| format!("{name} {count}")).collect();
    Ok(format!("{} cases agree ({})", cases.len(), each.join(", ")))
}

/// The service of a case that agrees, as its place in `SERVICES`; the programs come behind them.
fn agrees(case: &Case, folder: &Path) -> Result<usize, String> {
    match &case.test {
        Test::Service { call, lent, want } => {
            for null in [false, true] {
                let got = lending::serve(call, lent, null)?;
                if let Some(wrong) = difference(&got, want) {
                    return Err(wrong);
                }
            }
            Ok(call.service())
        }
        Test::Program { name, stdin, stdout } => {
            let program = PROGRAMS.iter().position(|(called, _)| called == name).ok_or(format!("an unknown program: {name}"))?;
            match printed(&folder.join(PROGRAMS[program].1), stdin)? {
                got if got == *stdout => Ok(SERVICES.len() + program),
                got => Err(format!("printed {:?}, not {:?}", String::from_utf8_lossy(&got), String::from_utf8_lossy(stdout))),
            }
        }
    }
}

/// All that the program prints when it reads these bytes. Its exit status is left open, but it is to end by itself.
fn printed(program: &Path, stdin: &[u8]) -> Result<Vec<u8>, String> {
    let wrong = |wrong| format!("{}: {wrong}", program.display());
    let mut running = Command::new(program).stdin(Stdio::piped()).stdout(Stdio::piped()).stderr(Stdio::piped()).spawn().map_err(wrong)?;
    // A program may end before it has read everything.
    let _ = running.stdin.take().unwrap().write_all(stdin);
    let output = running.wait_with_output().map_err(wrong)?;
    match output.status.code().is_some() && output.stderr.is_empty() {
        true => Ok(output.stdout),
        false => Err(format!("{}: {}, {}", program.display(), output.status, String::from_utf8_lossy(&output.stderr))),
    }
}
