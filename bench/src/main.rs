//! The proved scan beside the Rust original's, in one executable.
//!
//!   bench FILE..          the tables: real files, growth, hostile files
//!   bench real FILE..     the table of real files alone
//!   bench growth FILE     the tables of growth alone
//!   bench once SIDE FILE  one scan by one side, `rust` or `proved`, for a count of instructions; `none` makes the rooms only
mod clock;
mod files;
mod sides;
mod table;

use clock::{least, thread_nanoseconds};
use files::Case;
use sides::{Rooms, agree, original, proved};
use std::hint::black_box;

/// More rounds for the table that counts most, so that it takes some seconds too.
const ROUNDS_REAL: u64 = 200;
const ROUNDS: u64 = 40;

/// The least times of one file, in nanoseconds.
struct Times {
    rust: u64,
    rust_fresh: u64,
    proved: u64,
    sum: u64,
}

/// A line of a table: a file, what is lent for it, and in which rounds it takes part.
struct Line<'a> {
    case: &'a Case,
    answer: String,
    rooms: Rooms,
    every: u64,
    rounds: u64,
    least: Times,
}

/// What both sides answer; the program ends where they differ.
fn answer(case: &Case, rooms: &mut Rooms) -> String {
    agree(&case.bytes, rooms).unwrap_or_else(|why| {
        eprintln!("bench: {}: the two differ: {why}", case.name);
        std::process::exit(1)
    })
}

impl Line<'_> {
    /// Checked before it is timed. It takes part in every round, or in fewer where 40 would take more than four
    /// seconds, but in ten of them at least.
    fn new(case: &Case) -> Line<'_> {
        let mut rooms = Rooms::for_file(&case.bytes);
        let answer = answer(case, &mut rooms);
        let begin = thread_nanoseconds();
        black_box(proved(&case.bytes, &mut rooms));
        black_box(original(&case.bytes).is_ok());
        let once = thread_nanoseconds() - begin;
        let every = (once * ROUNDS / 4_000_000_000 + 1).min(ROUNDS / 10);
        let least = Times {
            rust: u64::MAX,
            rust_fresh: u64::MAX,
            proved: u64::MAX,
            sum: u64::MAX,
        };
        Line {
            case,
            answer,
            rooms,
            every,
            rounds: 0,
            least,
        }
    }

    fn round(&mut self) {
        self.rounds += 1;
        let (file, t) = (&self.case.bytes, &mut self.least);
        // SAFETY: gives free pages back to the system; nothing that is in use is touched.
        unsafe { clock::malloc_trim(0) };
        least(&mut t.rust_fresh, || original(black_box(file)));
        least(&mut t.rust, || original(black_box(file)));
        least(&mut t.proved, || proved(black_box(file), &mut self.rooms));
        least(&mut t.sum, || files::sum(black_box(file)));
    }

    fn print(&self) {
        let t = &self.least;
        let bytes = self.case.bytes.len();
        let per = |ns: u64| ns as f64 / bytes as f64;
        println!(
            "| {} | {bytes} | {} | {} | {:.3} | {:.3} | {:.2} | {:.3} | {:.3} |",
            self.case.name,
            self.answer,
            self.rounds,
            per(t.rust),
            per(t.proved),
            t.proved as f64 / t.rust as f64,
            per(t.rust_fresh),
            per(t.sum),
        );
    }
}

/// Times the files of one table round by round, so that a disturbance of some seconds meets all alike.
fn table<'a>(cases: impl IntoIterator<Item = &'a Case>, rounds: u64) {
    let mut lines: Vec<Line> = cases.into_iter().map(Line::new).collect();
    for round in 0..rounds {
        lines
            .iter_mut()
            .filter(|line| round % line.every == 0)
            .for_each(Line::round);
    }
    println!(
        "| file | bytes | answer | rounds | Rust ns/byte | proved ns/byte | proved / Rust | Rust, fresh memory | sum of bytes |"
    );
    println!("|---|---|---|---|---|---|---|---|---|");
    lines.iter().for_each(Line::print);
}

fn once(side: &str, path: &str) {
    let file = std::fs::read(path).expect("a file to read");
    let mut rooms = Rooms::for_length(file.len());
    match side {
        "rust" => drop(black_box(original(&file))),
        "proved" => drop(black_box(proved(&file, &mut rooms))),
        "none" => (),
        other => panic!("{other} is neither rust nor proved"),
    }
}

/// Checks first that both sides give the same rows for every file; what is timed is checked again.
fn read_all(paths: &[String]) -> Vec<Case> {
    let mut all: Vec<Case> = paths.iter().map(|path| Case::read(path)).collect();
    all.sort_by_key(|case| case.bytes.len());
    for case in &all {
        answer(case, &mut Rooms::for_file(&case.bytes));
    }
    all
}

/// The files of 1 MB and more, or the largest where there is none. The files are sorted by length.
fn large(all: &[Case]) -> &[Case] {
    let first = all.partition_point(|case| case.bytes.len() < 1_000_000);
    &all[first.min(all.len() - 1)..]
}

/// By length, from 1 MB to 1 GB, and by the number of records.
fn growth(seed: &[u8]) {
    table(
        &[1, 4, 16, 64, 256, 1_000].map(|megabytes| files::grown(seed, megabytes)),
        ROUNDS,
    );
    println!();
    table(
        &[1_000, 10_000, 100_000, 1_000_000, 10_000_000].map(files::numbered),
        ROUNDS,
    );
}

fn main() {
    let arguments: Vec<String> = std::env::args().skip(1).collect();
    let words: Vec<&str> = arguments.iter().map(String::as_str).collect();
    match words.as_slice() {
        [] => panic!("files to read are wanted"),
        ["once", side, path] => return once(side, path),
        ["growth", path] => {
            clock::keep_memory();
            return growth(&Case::read(path).bytes);
        }
        ["hostile"] => {
            clock::keep_memory();
            return table(&files::hostile(), ROUNDS);
        }
        ["real", ..] => {
            clock::keep_memory();
            return table(large(&read_all(&arguments[1..])), ROUNDS_REAL);
        }
        _ => clock::keep_memory(),
    }
    let all = read_all(&arguments);
    println!("Both give the same rows for all {} real files.", all.len());
    println!("\n## Real files of 1 MB and more\n");
    table(large(&all), ROUNDS_REAL);
    println!("\n## Growth\n");
    growth(&all[all.len() - 1].bytes);
    println!("\n## Hostile files\n");
    table(&files::hostile(), ROUNDS);
}
