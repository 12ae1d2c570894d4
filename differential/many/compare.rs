//! Compares two answers to one run as they are read, and counts what they say.

use std::collections::BTreeMap;
use std::fs::File;
use std::io::{BufRead, BufReader};

/// How often each line's first word came with each answer.
#[derive(Default)]
struct Counts {
    lines: u64,
    cases: u64,
    rows: u64,
    said: BTreeMap<Vec<u8>, BTreeMap<String, u64>>,
}

impl Counts {
    fn line(&mut self, line: &[u8]) {
        self.lines += 1;
        let end = line.iter().position(|b| *b == b' ').unwrap_or(line.len());
        let word = &line[..end];
        if word == b"case" {
            self.cases += 1;
            return;
        }
        if word == b"scan" && !line.split(|b| *b == b' ').nth(2).is_some_and(|n| n == b"0") {
            self.rows += 1;
        }
        let mut refused = false;
        for (slash, _) in line.iter().enumerate().filter(|(_, b)| **b == b'/') {
            let start = line[..slash]
                .iter()
                .rposition(|b| !b.is_ascii_digit())
                .map_or(0, |k| k + 1);
            let number = &line[start..(slash + 2).min(line.len())];
            self.say(word, std::str::from_utf8(number).unwrap_or("?"));
            refused = true;
        }
        if !refused {
            self.answered(word, line);
        }
    }

    /// An answer by what it tells: none, empty, unset, a letter; else only that it is one.
    fn answered(&mut self, word: &[u8], line: &[u8]) {
        let last = line.rsplit(|b| *b == b' ').next().unwrap_or(b"");
        let told = match (word, last) {
            (_, b"none") => "none",
            (b"name" | b"system" | b"w", b"-") => "empty",
            (b"units" | b"u", b"1") => "resolved",
            (b"units" | b"u", b"0") => "unresolved",
            (b"bool", b"T") => "T",
            (b"bool", b"F") => "F",
            (b"bool", b"U") => "U",
            (b"opt_ref" | b"opt_f64", b"$") => "unset",
            _ => "answer",
        };
        self.say(word, told);
    }

    fn say(&mut self, word: &[u8], told: &str) {
        match self.said.get_mut(word).and_then(|said| said.get_mut(told)) {
            Some(n) => *n += 1,
            None => {
                let said = self.said.entry(word.to_vec()).or_default();
                said.insert(told.to_string(), 1);
            }
        }
    }
}

fn lines(name: &str) -> BufReader<File> {
    match File::open(name) {
        Ok(file) => BufReader::with_capacity(1 << 20, file),
        Err(error) => crate::fail(&format!("{name}: {error}")),
    }
}

pub fn compare(expected: &str, actual: &str) {
    let (mut one, mut two) = (lines(expected), lines(actual));
    let (mut a, mut b) = (Vec::new(), Vec::new());
    let mut counts = Counts::default();
    let mut differ = None;
    loop {
        a.clear();
        let read = one.read_until(b'\n', &mut a);
        if differ.is_none() {
            b.clear();
            let other = two.read_until(b'\n', &mut b);
            if a != b || other.is_err() {
                differ = Some(counts.cases);
            }
        }
        if !matches!(read, Ok(n) if n > 0) {
            break;
        }
        counts.line(a.strip_suffix(b"\n").unwrap_or(&a));
    }
    println!("lines {}", counts.lines);
    println!("cases {}", counts.cases);
    println!("rows {}", counts.rows);
    for (word, said) in &counts.said {
        for (told, n) in said {
            println!("said {} {told} {n}", String::from_utf8_lossy(word));
        }
    }
    if let Some(case) = differ {
        // The case whose lines were being read, by its number in the run.
        println!("differ {}", case.saturating_sub(1));
        std::process::exit(1);
    }
}
