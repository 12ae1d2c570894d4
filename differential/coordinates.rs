//! The reals of points, directions and vectors in STEP files: prints each text once, and on standard error how many there are.
//!
//!     coordinates FOLDER..        all files *.stp and *.step below these folders
//!
//! Of a record CARTESIAN_POINT, DIRECTION or VECTOR, alone or part of a complex one, every item counts, in lists too, that is no string, no
//! reference, no `$` and no `*`: its bytes without the blanks around them. Strings and comments are no records. Which texts are
//! outside the class is told by document 01's words (`oracle/real.rs`).
#[path = "oracle/real.rs"]
#[allow(dead_code)]
mod real;

use real::{Reading, of_class, reading};
use std::collections::HashMap;
use std::io::{BufWriter, Write};
use std::path::{Path, PathBuf};

const KEYWORDS: [&[u8]; 3] = [b"CARTESIAN_POINT", b"DIRECTION", b"VECTOR"];

fn is_word(b: u8) -> bool {
    b.is_ascii_alphanumeric() || b == b'_' || b == b'-'
}

fn is_blank(b: u8) -> bool {
    matches!(b, b' ' | b'\t' | b'\r' | b'\n')
}

/// The place after a string or a comment that begins at `at`, or None where neither does.
fn past_literal(file: &[u8], at: usize) -> Option<usize> {
    let rest = &file[at..];
    if rest.starts_with(b"'") {
        // a quote in a string is two of them, which are then two strings
        let end = rest[1..].iter().position(|b| *b == b'\'');
        return Some(end.map_or(file.len(), |n| at + 1 + n + 1));
    }
    if rest.starts_with(b"/*") {
        let end = rest[2..].windows(2).position(|w| w == b"*/");
        return Some(end.map_or(file.len(), |n| at + 2 + n + 2));
    }
    None
}

fn past_blanks(file: &[u8], mut at: usize) -> usize {
    loop {
        while at < file.len() && is_blank(file[at]) {
            at += 1;
        }
        match file[at..].starts_with(b"/*").then(|| past_literal(file, at)).flatten() {
            Some(next) => at = next,
            None => return at,
        }
    }
}

/// Calls `found` with the items of the arguments whose `(` stands at `at`, and answers the place after their `)`.
fn items<'a>(file: &'a [u8], mut at: usize, mut found: impl FnMut(&'a [u8])) -> usize {
    let (mut depth, mut start, mut literal) = (0usize, at, false);
    while at < file.len() {
        match file[at] {
            b'\'' => {
                literal = true;
                at = past_literal(file, at).expect("a string");
                continue;
            }
            b'(' | b')' | b',' => {
                let item = file[start..at].trim_ascii();
                if !literal && !item.is_empty() && !matches!(item[0], b'#' | b'$' | b'*') {
                    found(item);
                }
                match file[at] {
                    b'(' => depth += 1,
                    b')' => depth -= 1,
                    _ => {}
                }
                (start, literal) = (at + 1, false);
                if depth == 0 {
                    return at + 1;
                }
            }
            _ => {}
        }
        at += 1;
    }
    at
}

/// Calls `begun` with the keyword's number at each record, and `item` with that and each item.
fn records<'a>(file: &'a [u8], mut begun: impl FnMut(usize), mut item: impl FnMut(usize, &'a [u8])) {
    let mut at = 0;
    while at < file.len() {
        if let Some(next) = past_literal(file, at) {
            at = next;
        } else if is_word(file[at]) {
            let start = at;
            while at < file.len() && is_word(file[at]) {
                at += 1;
            }
            let Some(k) = KEYWORDS.iter().position(|k| k.eq_ignore_ascii_case(&file[start..at])) else {
                continue;
            };
            let open = past_blanks(file, at);
            if file.get(open) == Some(&b'(') {
                begun(k);
                at = items(file, open, |text| item(k, text));
            }
        } else {
            at += 1;
        }
    }
}

fn files_below(folder: &Path, out: &mut Vec<PathBuf>) {
    let mut inside: Vec<PathBuf> = std::fs::read_dir(folder).expect("a folder").map(|e| e.expect("an entry").path()).collect();
    inside.sort();
    for path in inside {
        if path.is_dir() {
            files_below(&path, out);
        } else if path.extension().is_some_and(|e| e.eq_ignore_ascii_case("stp") || e.eq_ignore_ascii_case("step")) {
            out.push(path);
        }
    }
}

fn main() {
    let mut paths = Vec::new();
    for folder in std::env::args().skip(1) {
        files_below(Path::new(&folder), &mut paths);
    }
    let mut seen: HashMap<Box<[u8]>, bool> = HashMap::new();
    let mut out = BufWriter::with_capacity(1 << 20, std::io::stdout().lock());
    let (mut bytes, mut all, mut outside, mut far, mut with, mut with_outside) = (0, 0u64, 0u64, 0u64, 0, 0);
    let (mut begun, mut counts, mut outsides, mut files) = ([0u64; 3], [0u64; 3], [0u64; 3], [0u64; 3]);
    for path in &paths {
        let file = std::fs::read(path).expect("a file");
        bytes += file.len();
        let before = (all, outside, outsides);
        records(
            &file,
            |k| begun[k] += 1,
            |k, text| {
                all += 1;
                counts[k] += 1;
                let is_outside = match seen.get(text) {
                    Some(known) => *known,
                    None => {
                        assert!(!text.contains(&b'\n'), "{}: an item of two lines", path.display());
                        let found = std::str::from_utf8(text).map(reading);
                        let found = matches!(found, Ok(Reading::Real { figures, e }) if !of_class(&figures, e));
                        seen.insert(text.into(), found);
                        far += u64::from(found);
                        out.write_all(text).and_then(|()| out.write_all(b"\n")).expect("standard output");
                        found
                    }
                };
                outside += u64::from(is_outside);
                outsides[k] += u64::from(is_outside);
            },
        );
        with += usize::from(all > before.0);
        with_outside += usize::from(outside > before.1);
        for k in 0..KEYWORDS.len() {
            files[k] += u64::from(outsides[k] > before.2[k]);
        }
    }
    out.flush().expect("standard output");
    eprintln!("files {}, bytes {bytes}, files with reals {with}", paths.len());
    for (k, keyword) in KEYWORDS.iter().enumerate() {
        let keyword = String::from_utf8_lossy(keyword);
        eprintln!(
            "{keyword}: records {}, reals {}, of these outside the class {} in {} files",
            begun[k], counts[k], outsides[k], files[k]
        );
    }
    eprintln!("reals {all}, distinct {}", seen.len());
    eprintln!("outside the class: reals {outside}, distinct {far}, in files {with_outside}");
}
