//! The fifteen readers of the argument reader: the original's answers, in document 01's numbers and places.
//!
//! Where a reader stands afterwards is the original's `Args::offset()` in every case: `param_span` leaves it past the comma, or
//! where the trivia end (10), or at the parameter's start (11). The answer is the original's too. Beside it `document.rs`
//! reads the same parameter. Where that met nothing outside document 01's domain the two must be equal; where it did, its answer
//! is printed. So is its answer to a string that names one of the pages B to I; with the page forgotten it must be the original's.

use crate::document::{Answer, Document, Reader, bits, past_trivia};
use crate::listed::{self, Listed};
use crate::refusal::{self, Refusal};
use cad_step::{Args, StepError};
use std::cell::Cell;
use std::fmt::Write;
use std::panic::{AssertUnwindSafe, catch_unwind};

pub const READERS: [(&str, Reader); 15] = [
    ("ref", Reader::Ref),
    ("opt_ref", Reader::OptRef),
    ("i64", Reader::I64),
    ("f64", Reader::F64),
    ("opt_f64", Reader::OptF64),
    ("measure", Reader::Measure),
    ("enum", Reader::Enum),
    ("bool", Reader::Bool),
    ("str", Reader::Str),
    ("ref_list", Reader::RefList),
    ("i64_list", Reader::I64List),
    ("f64_list", Reader::F64List),
    ("ref_grid", Reader::RefGrid),
    ("f64_grid", Reader::F64Grid),
    ("skip", Reader::Skip),
];

/// What a reader says.
pub enum Told {
    /// Where it stands then, and its answer.
    Said(usize, Result<Answer, Refusal>),
    /// The original panicked.
    Panicked,
    /// The driver's reading of document 01 and the original part inside the domain: an error of the driver, or a find.
    Parted(String),
}

fn rows<T, U>(grid: Vec<Vec<T>>, number: impl Fn(T) -> U) -> (Vec<U>, Vec<usize>) {
    let (mut numbers, mut ends) = (Vec::new(), Vec::new());
    for row in grid {
        numbers.extend(row.into_iter().map(&number));
        ends.push(numbers.len());
    }
    (numbers, ends)
}

/// The original's answer.
fn call(reader: Reader, args: &mut Args<'_>) -> Result<Answer, StepError> {
    Ok(match reader {
        Reader::Ref => Answer::Ref(args.next_ref()?),
        Reader::OptRef => args.next_opt_ref()?.map_or(Answer::Unset, Answer::Ref),
        Reader::I64 => Answer::Int(args.next_i64()?),
        Reader::F64 => Answer::Real(bits(args.next_f64()?)),
        Reader::OptF64 => args
            .next_opt_f64()?
            .map_or(Answer::Unset, |x| Answer::Real(bits(x))),
        Reader::Measure => Answer::Real(bits(args.next_measure_f64()?)),
        Reader::Enum => Answer::Name(args.next_enum()?.as_bytes().to_vec()),
        Reader::Bool => Answer::Truth(match args.next_bool()? {
            Some(true) => 'T',
            Some(false) => 'F',
            None => 'U',
        }),
        Reader::Str => Answer::Text(args.next_str()?.into_owned().into_bytes()),
        Reader::RefList => {
            let mut out = Vec::new();
            args.next_ref_list(&mut out)?;
            Answer::Refs(out)
        }
        Reader::I64List => {
            let mut out = Vec::new();
            args.next_i64_list(&mut out)?;
            Answer::Ints(out)
        }
        Reader::F64List => {
            let mut out = Vec::new();
            args.next_f64_list(&mut out)?;
            Answer::Reals(out.into_iter().map(bits).collect())
        }
        Reader::RefGrid => {
            let mut out = Vec::new();
            args.next_ref_grid(&mut out)?;
            let (numbers, ends) = rows(out, |n| n);
            Answer::RefGrid(numbers, ends)
        }
        Reader::F64Grid => {
            let mut out = Vec::new();
            args.next_f64_grid(&mut out)?;
            let (numbers, ends) = rows(out, bits);
            Answer::RealGrid(numbers, ends)
        }
        Reader::Skip => {
            args.skip()?;
            Answer::Skipped
        }
    })
}

/// What a reader over `file` that stands at `place` and ends at `end` says.
pub fn tell(reader: Reader, file: &[u8], place: usize, end: usize) -> Told {
    let outside = Cell::new(false);
    tell_and_note(reader, file, place, end, &outside)
}

/// The same, and notes whether anything was met that the original does not decide.
pub fn tell_and_note(
    reader: Reader,
    file: &[u8],
    place: usize,
    end: usize,
    noted: &Cell<bool>,
) -> Told {
    let (outside, paged) = (Cell::new(false), Cell::new(false));
    let read = |paged| {
        let document = Document {
            file,
            outside: &outside,
            paged,
        };
        document.read(reader, place, end)
    };
    let (own_after, own) = read(Some(&paged));
    let mut args = Args::new(file, place as u32..end as u32);
    let Ok(original) = catch_unwind(AssertUnwindSafe(|| call(reader, &mut args))) else {
        return Told::Panicked;
    };
    let after = args.offset();
    let original = original.map_err(|error| {
        let mut refusal = refusal::of(&error);
        // `next_bool` gives the place after the parameter where the name is none of its three.
        if reader == Reader::Bool && refusal.number == 12 {
            let start = past_trivia(file, place, end);
            if refusal.place != start {
                listed::note(Listed::Place);
            }
            refusal.place = start;
        }
        refusal
    });
    if after != own_after {
        return Told::Parted(format!("stands {after}, and {own_after} by document 01"));
    }
    if outside.get() {
        noted.set(true);
        if original != own {
            listed::note(match &own {
                Err(refusal) if refusal.number == 13 => Listed::Class,
                Err(_) => Listed::Type,
                Ok(_) => Listed::Value,
            });
        }
        return Told::Said(after, own);
    }
    let parted = |own| format!("says {original:?}, and {own:?} by document 01");
    if paged.get() {
        noted.set(true);
        let (_, forgotten) = read(None);
        if original != forgotten {
            return Told::Parted(parted(&forgotten));
        }
        if original != own {
            listed::note(Listed::Page);
        }
        return Told::Said(after, own);
    }
    if original != own {
        return Told::Parted(parted(&own));
    }
    Told::Said(after, original)
}

fn joined<T>(out: &mut String, things: &[T], mut put: impl FnMut(&mut String, &T)) {
    if things.is_empty() {
        out.push('-');
    }
    for (k, thing) in things.iter().enumerate() {
        if k > 0 {
            out.push(',');
        }
        put(out, thing);
    }
}

/// Bytes in lower-case hex, `-` where there are none.
pub fn put_hex(out: &mut String, bytes: &[u8]) {
    if bytes.is_empty() {
        out.push('-');
    }
    for b in bytes {
        let _ = write!(out, "{b:02x}");
    }
}

/// An f64's 16 digits, `nan` for every NaN.
pub fn put_bits(out: &mut String, bits: &u64) {
    if f64::from_bits(*bits).is_nan() {
        out.push_str("nan");
    } else {
        let _ = write!(out, "{bits:016x}");
    }
}

fn put_number<T: std::fmt::Display>(out: &mut String, n: &T) {
    let _ = write!(out, "{n}");
}

fn put_answer(out: &mut String, answer: &Answer) {
    match answer {
        Answer::Ref(n) => put_number(out, n),
        Answer::Unset => out.push('$'),
        Answer::Int(n) => put_number(out, n),
        Answer::Real(b) => put_bits(out, b),
        Answer::Name(bytes) | Answer::Text(bytes) => put_hex(out, bytes),
        Answer::Truth(c) => out.push(*c),
        Answer::Refs(list) => joined(out, list, put_number),
        Answer::Ints(list) => joined(out, list, put_number),
        Answer::Reals(list) => joined(out, list, put_bits),
        Answer::RefGrid(list, ends) => {
            joined(out, list, put_number);
            out.push('|');
            joined(out, ends, put_number);
        }
        Answer::RealGrid(list, ends) => {
            joined(out, list, put_bits);
            out.push('|');
            joined(out, ends, put_number);
        }
        Answer::Skipped => {}
    }
}

/// Prints a reader's line, and gives the place where a `skip` that is not refused stands.
pub fn put_line(out: &mut String, name: &str, place: usize, told: Told) -> Option<usize> {
    match told {
        Told::Panicked => {
            let _ = writeln!(out, "{name} panic");
        }
        Told::Parted(how) => {
            let _ = writeln!(out, "driver {name} @{place} {how}");
        }
        Told::Said(after, Err(refusal)) => {
            let _ = writeln!(out, "{name} @{after} {refusal}");
        }
        Told::Said(after, Ok(Answer::Skipped)) => {
            let _ = writeln!(out, "{name} @{after}");
            return Some(after);
        }
        Told::Said(after, Ok(answer)) => {
            let _ = write!(out, "{name} @{after} ");
            put_answer(out, &answer);
            out.push('\n');
        }
    }
    None
}

/// Prints the walk over the arguments from `start` to `end`, with those readers that `wanted` names.
pub fn walk(file: &[u8], start: usize, end: usize, wanted: &[bool; 15], out: &mut String) {
    let mut place = start;
    loop {
        let mut next = None;
        for (k, (name, reader)) in READERS.iter().enumerate() {
            if wanted[k] || *reader == Reader::Skip {
                next = put_line(out, name, place, tell(*reader, file, place, end));
            }
        }
        let Some(after) = next else {
            return;
        };
        place = after;
    }
}
