//! Makes runs of cases fast, and compares two answers to a run.
//!
//!     many exhaustive                       all short inputs of each shape
//!     many grammar COUNT SEED               files of a grammar, a quarter of them damaged
//!     many long COUNT SEED                  files with long strings, comments and runs of other bytes, one in eight damaged
//!     many damaged COUNT SEED FILE..        cuts of the given files, two thirds of them damaged
//!     many files FILE..                     the files themselves, in the order given
//!     many run FILE                         the cases of a run that is there already
//!     many union FILE..                     the cases of all these runs, each once, the shortest first
//!     many split FOLDER                     a file for each case of the run on standard input
//!     many compare EXPECTED ACTUAL          compares two answers as they are read, and counts them
//!
//! Options of the first seven: `--skip S`, `--take T` give a part of the run, `--count` its number of cases. A case depends on the
//! seed and its number alone.
//!
//! `compare` prints `lines N`, `cases N` and how often each answer occurred in EXPECTED, one to a line: the line's first word and
//! `answer`, `none` or a refusal's number and reason. Its status is 1 where the two differ, and it then prints `differ CASE`.

mod compare;
mod damaged;
mod draw;
mod exhaustive;
mod grammar;
mod long;
mod units;

use std::io::{BufWriter, Read, Write};

/// What is wanted of a run.
struct Part {
    skip: u64,
    take: u64,
    count: bool,
}

fn main() {
    let mut words = Vec::new();
    let mut part = Part {
        skip: 0,
        take: u64::MAX,
        count: false,
    };
    let mut arguments = std::env::args().skip(1);
    while let Some(argument) = arguments.next() {
        match argument.as_str() {
            "--skip" => part.skip = number(arguments.next()),
            "--take" => part.take = number(arguments.next()),
            "--count" => part.count = true,
            _ => words.push(argument),
        }
    }
    let seed = || number(words.get(2).cloned());
    let count = || number(words.get(1).cloned());
    match words.first().map(String::as_str) {
        Some("exhaustive") => {
            let shapes = exhaustive::shapes();
            let total = shapes.iter().map(exhaustive::Shape::len).sum();
            write(&part, total, |i, out| exhaustive::case(&shapes, i, out));
        }
        Some("grammar") => {
            let seed = seed();
            write(&part, count(), |i, out| grammar::case(seed, i, out));
        }
        Some("long") => {
            let seed = seed();
            write(&part, count(), |i, out| long::case(seed, i, out));
        }
        Some("damaged") => {
            let seed = seed();
            let files: Vec<Vec<u8>> = words[3..].iter().map(|name| read(name)).collect();
            write(&part, count(), |i, out| damaged::case(&files, seed, i, out));
        }
        Some("files") => {
            let names = &words[1..];
            let total = names.len() as u64;
            write(&part, total, |i, out| *out = read(&names[i as usize]));
        }
        Some("run") if words.len() == 2 => {
            let run = read(&words[1]);
            let cases = cases(&run);
            write(&part, cases.len() as u64, |i, out| {
                out.extend_from_slice(cases[i as usize])
            });
        }
        Some("union") => {
            let runs: Vec<Vec<u8>> = words[1..].iter().map(|name| read(name)).collect();
            let mut all: Vec<&[u8]> = runs.iter().flat_map(|run| cases(run)).collect();
            all.sort_by_key(|case| (case.len(), *case));
            all.dedup();
            write(&part, all.len() as u64, |i, out| {
                out.extend_from_slice(all[i as usize])
            });
        }
        Some("split") if words.len() == 2 => split(&words[1]),
        Some("compare") if words.len() == 3 => compare::compare(&words[1], &words[2]),
        _ => fail("exhaustive, grammar, long, damaged, files or compare is wanted"),
    }
}

/// Writes the part of a run: each case's length in decimal, LF, and its bytes.
fn write(part: &Part, total: u64, mut case: impl FnMut(u64, &mut Vec<u8>)) {
    let end = part.skip.saturating_add(part.take).min(total);
    let mut out = BufWriter::with_capacity(1 << 20, std::io::stdout().lock());
    if part.count {
        let _ = writeln!(out, "{}", end.saturating_sub(part.skip));
        return;
    }
    let mut bytes = Vec::new();
    for i in part.skip..end {
        bytes.clear();
        case(i, &mut bytes);
        let written = writeln!(out, "{}", bytes.len()).and_then(|()| out.write_all(&bytes));
        if written.is_err() {
            fail("the output cannot be written");
        }
    }
}

/// The cases of a run.
fn cases(run: &[u8]) -> Vec<&[u8]> {
    let mut found = Vec::new();
    let mut rest = run;
    while let Some(end) = rest.iter().position(|b| *b == b'\n') {
        let length = std::str::from_utf8(&rest[..end])
            .ok()
            .and_then(|n| n.parse::<usize>().ok());
        let Some(case) = length.and_then(|length| rest.get(end + 1..end + 1 + length)) else {
            fail("the input is no run of cases");
        };
        found.push(case);
        rest = &rest[end + 1 + case.len()..];
    }
    found
}

/// A file for each case, named by the case's number.
fn split(folder: &str) {
    let mut run = Vec::new();
    let read = std::io::stdin().lock().read_to_end(&mut run);
    let mut made = read.and_then(|_| std::fs::create_dir_all(folder));
    for (number, case) in cases(&run).into_iter().enumerate() {
        made = made.and_then(|()| std::fs::write(format!("{folder}/{number:06}"), case));
    }
    if let Err(error) = made {
        fail(&format!("{folder}: {error}"));
    }
}

fn number(word: Option<String>) -> u64 {
    match word.and_then(|word| word.parse().ok()) {
        Some(n) => n,
        None => fail("a number is wanted"),
    }
}

fn read(name: &str) -> Vec<u8> {
    match std::fs::read(name) {
        Ok(bytes) => bytes,
        Err(error) => fail(&format!("{name}: {error}")),
    }
}

pub fn fail(message: &str) -> ! {
    eprintln!("many: {message}");
    std::process::exit(2);
}
