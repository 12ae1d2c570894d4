//! Drives the Rust original over a run of cases and prints the text form of all answers.
//!
//!     oracle [--part PART,..] [--readers NAME,..] [--listed FILE] [FILE..]
//!
//! Without files, standard input is a run of cases: a length in decimal, LF, that many bytes. With files, each file is
//! one case. `--part` names which lines are printed beside `case`, `refused`, `scan`, `h` and `r`, which every part has:
//!
//!     rows      no others (the default)
//!     lookup    `l` and `f`
//!     texts     `name` and `system`
//!     units     `units`
//!     walks     `walk`, `part` and the readers' lines
//!     all       all of them
//!     asks      the lines of the program `asks`, and no others
//!
//! `--readers` names the readers whose lines a walk prints; `skip` is always printed. `--listed` writes to a file how often the
//! original's own answer is another one than is printed (listed.rs).
//!
//! A reader in which the original panics prints its name and `panic`; a case in which it panics elsewhere prints its `case` line and
//! the line `panic`. The run goes on. A line that begins with `driver` tells where the driver's own reading of document 01 and
//! the original part inside the domain; none is wanted.

mod asks;
mod document;
mod input;
mod listed;
mod lookup;
mod pages;
mod parts;
mod reader;
mod real;
mod refusal;
mod rows;
mod step;
mod text;
mod units;

use std::io::Write;
use std::panic::{AssertUnwindSafe, catch_unwind, set_hook};

/// Which lines are printed.
#[derive(Default)]
struct Wanted {
    lookup: bool,
    texts: bool,
    units: bool,
    walks: bool,
    asks: bool,
    readers: [bool; 15],
}

impl Wanted {
    fn parts(&mut self, names: &str) {
        for name in names.split(',') {
            let all = name == "all";
            match name {
                "rows" | "lookup" | "texts" | "units" | "walks" | "all" | "asks" => {}
                _ => fail("--part takes: rows, lookup, texts, units, walks, all, asks"),
            }
            self.lookup |= all || name == "lookup";
            self.texts |= all || name == "texts";
            self.units |= all || name == "units";
            self.walks |= all || name == "walks";
            self.asks |= name == "asks";
        }
    }

    fn readers(&mut self, names: &str) {
        self.readers = [false; 15];
        for name in names.split(',') {
            match reader::READERS.iter().position(|(known, _)| *known == name) {
                Some(k) => self.readers[k] = true,
                None => fail("--readers takes the readers' names"),
            }
        }
    }
}

/// The lines of one case after its `case` line.
fn answer(wanted: &Wanted, file: &[u8], out: &mut String) {
    if wanted.asks {
        asks::print(file, out);
        return;
    }
    let Some(scan) = rows::print(file, out) else {
        return;
    };
    if !(wanted.lookup || wanted.texts || wanted.units || wanted.walks) {
        return;
    }
    let step = match step::Step::of(file, &scan) {
        Ok(step) => step,
        Err(how) => {
            out.push_str(&format!("driver {how}\n"));
            return;
        }
    };
    if wanted.lookup {
        lookup::print_ids(&scan, &step, out);
        lookup::print_headers(file, &scan, &step, out);
    }
    if wanted.texts {
        lookup::print_texts(file, &scan, &step, out);
    }
    if wanted.units {
        units::print(file, &scan, &step, out);
    }
    if wanted.walks {
        parts::print(file, &scan, &step, &wanted.readers, out);
    }
}

fn main() {
    let mut wanted = Wanted {
        readers: [true; 15],
        ..Wanted::default()
    };
    let mut files = Vec::new();
    let mut counted = None;
    let mut arguments = std::env::args_os().skip(1);
    while let Some(argument) = arguments.next() {
        if argument == "--part" {
            let names = arguments.next().unwrap_or_default();
            wanted.parts(names.to_str().unwrap_or(""));
        } else if argument == "--readers" {
            let names = arguments.next().unwrap_or_default();
            wanted.readers(names.to_str().unwrap_or(""));
        } else if argument == "--listed" {
            counted = arguments.next();
        } else {
            files.push(argument);
        }
    }

    // A panic is an answer here, and not worth a message each.
    set_hook(Box::new(|_| {}));

    let mut out = std::io::BufWriter::with_capacity(1 << 16, std::io::stdout().lock());
    let mut text = String::new();
    let mut number = 0u64;
    let mut each = |file: Vec<u8>| {
        text.clear();
        let whole = catch_unwind(AssertUnwindSafe(|| answer(&wanted, &file, &mut text)));
        if whole.is_err() {
            text.clear();
            text.push_str("panic\n");
        }
        let written = writeln!(out, "case {number}").and_then(|()| out.write_all(text.as_bytes()));
        if written.is_err() {
            std::process::exit(1);
        }
        number += 1;
    };

    if files.is_empty() {
        let mut stream = input::Stream::new(std::io::stdin().lock());
        loop {
            match stream.next() {
                Ok(Some(file)) => each(file),
                Ok(None) => break,
                Err(message) => fail(&message),
            }
        }
    } else {
        for name in files {
            match std::fs::read(&name) {
                Ok(file) => each(file),
                Err(error) => fail(&format!("{}: {error}", name.to_string_lossy())),
            }
        }
    }
    if out.flush().is_err() {
        std::process::exit(1);
    }
    if let Some(name) = counted
        && std::fs::write(&name, listed::lines()).is_err()
    {
        fail("the counts cannot be written");
    }
}

fn fail(message: &str) -> ! {
    eprintln!("oracle: {message}");
    std::process::exit(2);
}
