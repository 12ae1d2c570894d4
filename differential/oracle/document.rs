//! What document 01 says of parameters, in its words and shape; where it is silent, what the original settles.
//!
//! The driver prints the original's answers. This module serves two ends: it gives the answer where the original's lies outside
//! document 01's domain (reals outside the class, `inf` and its like, byte 0B and Unicode white space at a number's ends,
//! surrogates that do not join) and where a string names one of the pages B to I (request #109), and everywhere else its answer
//! must be the original's, so that an error of the driver shows. It was written with the original at hand: a check of the driver,
//! and no second witness for the original.

use crate::real::{Reading, nearest, of_class, reading};
use crate::refusal::Refusal;
use crate::text;
use std::cell::Cell;
use std::ops::Range;

/// The answer of one reader.
#[derive(Clone, PartialEq, Debug)]
pub enum Answer {
    Ref(u32),
    Unset,
    Int(i64),
    Real(u64),
    Name(Vec<u8>),
    Truth(char),
    Text(Vec<u8>),
    Refs(Vec<u32>),
    Ints(Vec<i64>),
    Reals(Vec<u64>),
    RefGrid(Vec<u32>, Vec<usize>),
    RealGrid(Vec<u64>, Vec<usize>),
    Skipped,
}

/// The fifteen readers, in the text form's order.
#[derive(Clone, Copy, PartialEq, Eq, Debug)]
pub enum Reader {
    Ref,
    OptRef,
    I64,
    F64,
    OptF64,
    Measure,
    Enum,
    Bool,
    Str,
    RefList,
    I64List,
    F64List,
    RefGrid,
    F64Grid,
    Skip,
}

/// The bits of an f64, every NaN being one.
pub fn bits(x: f64) -> u64 {
    if x.is_nan() {
        f64::NAN.to_bits()
    } else {
        x.to_bits()
    }
}

pub fn white(b: u8) -> bool {
    matches!(b, b' ' | b'\t' | b'\n' | 0x0C | b'\r')
}

/// Past the comment that begins at `i`, or `end` where it is open there.
fn past_comment(file: &[u8], i: usize, end: usize) -> usize {
    match file[i + 2..end].windows(2).position(|two| two == b"*/") {
        Some(at) => i + 2 + at + 2,
        None => end,
    }
}

fn at_comment(file: &[u8], i: usize, end: usize) -> bool {
    file[i..end].starts_with(b"/*")
}

/// Past the literal whose quote stands at `i`, or none where it is open at `end`.
fn past_literal(file: &[u8], i: usize, end: usize) -> Option<usize> {
    let quote = file[i];
    let mut j = i + 1;
    loop {
        j += file[j..end].iter().position(|&b| b == quote)? + 1;
        // `''` within a string is a quote; a binary has no such thing.
        if quote == b'\'' && j < end && file[j] == quote {
            j += 1;
        } else {
            return Some(j);
        }
    }
}

/// Where the trivia that begin at `i` end.
pub fn past_trivia(file: &[u8], mut i: usize, end: usize) -> usize {
    while i < end {
        if white(file[i]) {
            i += 1;
        } else if at_comment(file, i, end) {
            i = past_comment(file, i, end);
        } else {
            break;
        }
    }
    i
}

/// The depth after a byte: a `)` at depth 0 leaves it 0.
fn deeper(depth: usize, b: u8) -> usize {
    match b {
        b'(' => depth + 1,
        b')' => depth.saturating_sub(1),
        _ => depth,
    }
}

/// A parameter without its trailing trivia, and where the reader stands after it.
pub struct Parameter {
    pub span: Range<usize>,
    pub after: usize,
}

/// The parameter of a reader that stands at `place`; or the refusal, and where the reader stands then.
pub fn parameter(file: &[u8], place: usize, end: usize) -> Result<Parameter, (Refusal, usize)> {
    let start = past_trivia(file, place, end);
    if start >= end {
        return Err((Refusal::new(10, start), start));
    }
    let (mut i, mut last, mut depth) = (start, start, 0);
    while i < end && !(file[i] == b',' && depth == 0) {
        if white(file[i]) {
            i += 1;
        } else if at_comment(file, i, end) {
            i = past_comment(file, i, end);
        } else if file[i] == b'\'' || file[i] == b'"' {
            i = past_literal(file, i, end).ok_or((Refusal::new(11, i), start))?;
            last = i;
        } else {
            depth = deeper(depth, file[i]);
            i += 1;
            last = i;
        }
    }
    let after = if i < end { i + 1 } else { i };
    Ok(Parameter {
        span: start..last,
        after,
    })
}

/// The inside of `(`..`)`.
fn inside(file: &[u8], span: &Range<usize>) -> Option<Range<usize>> {
    let s = &file[span.clone()];
    (s.len() >= 2 && s[0] == b'(' && s[s.len() - 1] == b')').then(|| span.start + 1..span.end - 1)
}

fn trimmed(file: &[u8], span: Range<usize>) -> Range<usize> {
    let s = &file[span.clone()];
    let front = s.iter().take_while(|&&b| white(b)).count();
    let back = s[front..].iter().rev().take_while(|&&b| white(b)).count();
    span.start + front..span.end - back
}

/// The items of a list's inside: cut at commas of depth 0, trimmed of whitespace only.
fn items(file: &[u8], body: Range<usize>) -> Vec<Range<usize>> {
    let (mut out, mut start, mut i, mut depth) = (Vec::new(), body.start, body.start, 0);
    while i < body.end {
        match file[i] {
            b',' if depth == 0 => {
                out.push(trimmed(file, start..i));
                i += 1;
                start = i;
            }
            b'\'' | b'"' => i = past_literal(file, i, body.end).unwrap_or(body.end),
            b'/' if at_comment(file, i, body.end) => i = past_comment(file, i, body.end),
            b => {
                depth = deeper(depth, b);
                i += 1;
            }
        }
    }
    let last = trimmed(file, start..body.end);
    // `()` has no item, `(1,)` has two.
    if !out.is_empty() || !last.is_empty() {
        out.push(last);
    }
    out
}

/// Reads by document 01, and notes whether anything outside its domain was met, and whether a string named one of the pages B to I
/// (`text::Met`).
pub struct Document<'a> {
    pub file: &'a [u8],
    pub outside: &'a Cell<bool>,
    pub paged: Option<&'a Cell<bool>>,
}

impl Document<'_> {
    /// The answer of a reader at `place`, and where it stands then.
    pub fn read(
        &self,
        reader: Reader,
        place: usize,
        end: usize,
    ) -> (usize, Result<Answer, Refusal>) {
        match parameter(self.file, place, end) {
            Err((refusal, stands)) => (stands, Err(refusal)),
            Ok(p) => {
                let told = self.value(reader, &p.span);
                (
                    p.after,
                    told.map_err(|(number, place)| Refusal::new(number, place)),
                )
            }
        }
    }

    /// The value of a parameter; else 12 or 13 and its place.
    fn value(&self, reader: Reader, span: &Range<usize>) -> Result<Answer, (u8, usize)> {
        let s = &self.file[span.clone()];
        let at = |number| (number, span.start);
        match reader {
            Reader::Skip => Ok(Answer::Skipped),
            Reader::OptRef | Reader::OptF64 if s == b"$" => Ok(Answer::Unset),
            Reader::Str if s == b"$" => Ok(Answer::Text(Vec::new())),
            Reader::Ref | Reader::OptRef => self.reference(span).map(Answer::Ref).map_err(at),
            Reader::I64 => self.integer(span).map(Answer::Int).map_err(at),
            Reader::F64 | Reader::OptF64 => self.real(span).map(Answer::Real).map_err(at),
            Reader::Measure => self.measure(span).map(Answer::Real).map_err(at),
            Reader::Enum => self
                .name(span)
                .map(|n| Answer::Name(n.to_vec()))
                .map_err(at),
            Reader::Bool => match self.name(span) {
                Ok(b"T") => Ok(Answer::Truth('T')),
                Ok(b"F") => Ok(Answer::Truth('F')),
                Ok(b"U") => Ok(Answer::Truth('U')),
                _ => Err(at(12)),
            },
            Reader::Str if s.len() >= 2 && s[0] == b'\'' => {
                let met = text::Met {
                    outside: self.outside,
                    paged: self.paged,
                };
                let text = text::decode(&s[1..s.len() - 1], met);
                Ok(Answer::Text(text.into_bytes()))
            }
            Reader::Str => Err(at(12)),
            Reader::RefList => self.list(span, Self::reference).map(Answer::Refs),
            Reader::I64List => self.list(span, Self::integer).map(Answer::Ints),
            Reader::F64List => self.list(span, Self::real).map(Answer::Reals),
            Reader::RefGrid => self
                .grid(span, Self::reference)
                .map(|(n, e)| Answer::RefGrid(n, e)),
            Reader::F64Grid => self
                .grid(span, Self::real)
                .map(|(n, e)| Answer::RealGrid(n, e)),
        }
    }

    fn reference(&self, span: &Range<usize>) -> Result<u32, u8> {
        let digits = self.file[span.clone()].strip_prefix(b"#").ok_or(12)?;
        if digits.is_empty() || !digits.iter().all(u8::is_ascii_digit) {
            return Err(12);
        }
        // Leading zeros aside, more than ten digits are too many.
        let zeros = digits.iter().take_while(|&&b| b == b'0').count();
        if digits.len() - zeros > 10 {
            return Err(12);
        }
        let number = digits
            .iter()
            .fold(0u64, |n, b| n * 10 + u64::from(b - b'0'));
        u32::try_from(number).map_err(|_| 12)
    }

    /// The text of a number; 12 where it is none, or where Rust would trim what document 01 does not.
    fn number(&self, span: &Range<usize>) -> Result<&str, u8> {
        let s = std::str::from_utf8(&self.file[span.clone()]).map_err(|_| 12)?;
        if s.trim().len() != s.len() {
            self.outside.set(true);
            return Err(12);
        }
        Ok(s)
    }

    fn integer(&self, span: &Range<usize>) -> Result<i64, u8> {
        let s = self.number(span)?;
        let (negative, digits) = match s.as_bytes() {
            [b'-', rest @ ..] => (true, rest),
            [b'+', rest @ ..] => (false, rest),
            rest => (false, rest),
        };
        if digits.is_empty() || !digits.iter().all(u8::is_ascii_digit) {
            return Err(12);
        }
        let zeros = digits.iter().take_while(|&&b| b == b'0').count();
        if digits.len() - zeros > 19 {
            return Err(12);
        }
        let size = digits
            .iter()
            .fold(0i128, |n, b| n * 10 + i128::from(b - b'0'));
        i64::try_from(if negative { -size } else { size }).map_err(|_| 12)
    }

    /// The bits of the f64 nearest to m·10^e.
    fn real(&self, span: &Range<usize>) -> Result<u64, u8> {
        let s = self.number(span)?;
        let Reading::Real { figures, e } = reading(s) else {
            if crate::real::names_no_number(s) {
                self.outside.set(true);
            }
            return Err(12);
        };
        if !of_class(&figures, e) {
            self.outside.set(true);
            return Err(13);
        }
        let size = nearest(&figures, e);
        let x = if s.starts_with('-') { -size } else { size };
        // Rust's parser stops taking digits of an exponent at 65536, which a long fraction could make up for.
        if s.len() > 60000 && s.parse::<f64>().is_ok_and(|y| y.to_bits() != x.to_bits()) {
            self.outside.set(true);
        }
        Ok(bits(x))
    }

    /// A real; else what stands between the first `(` byte and a last `)`, trimmed of whitespace, as a real.
    fn measure(&self, span: &Range<usize>) -> Result<u64, u8> {
        let whole = self.real(span);
        if whole != Err(12) {
            return whole;
        }
        let s = &self.file[span.clone()];
        match s.iter().position(|&b| b == b'(') {
            Some(open) if s[s.len() - 1] == b')' => {
                self.real(&trimmed(self.file, span.start + open + 1..span.end - 1))
            }
            _ => Err(12),
        }
    }

    fn name(&self, span: &Range<usize>) -> Result<&[u8], u8> {
        let s = &self.file[span.clone()];
        if s.len() < 2 || s[0] != b'.' || s[s.len() - 1] != b'.' {
            return Err(12);
        }
        let name = &s[1..s.len() - 1];
        std::str::from_utf8(name).map(str::as_bytes).map_err(|_| 12)
    }

    fn list<T>(
        &self,
        span: &Range<usize>,
        item: impl Fn(&Self, &Range<usize>) -> Result<T, u8>,
    ) -> Result<Vec<T>, (u8, usize)> {
        let body = inside(self.file, span).ok_or((12, span.start))?;
        let mut out = Vec::new();
        for i in items(self.file, body) {
            out.push(item(self, &i).map_err(|number| (number, i.start))?);
        }
        Ok(out)
    }

    /// All numbers, and the row ends: numbers so far.
    #[allow(clippy::type_complexity)]
    fn grid<T>(
        &self,
        span: &Range<usize>,
        item: impl Fn(&Self, &Range<usize>) -> Result<T, u8>,
    ) -> Result<(Vec<T>, Vec<usize>), (u8, usize)> {
        let body = inside(self.file, span).ok_or((12, span.start))?;
        let (mut numbers, mut ends) = (Vec::new(), Vec::new());
        for row in items(self.file, body) {
            numbers.extend(self.list(&row, &item)?);
            ends.push(numbers.len());
        }
        Ok((numbers, ends))
    }
}
