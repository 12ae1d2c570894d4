//! What document 01 says of a string's text; where it is silent, what the original settles. The pages are request #109's.

use crate::pages;
use std::cell::Cell;

/// The value of hex digits in either case, or none.
fn hex(s: &[u8]) -> Option<u32> {
    s.iter()
        .try_fold(0u32, |n, &b| Some(n << 4 | char::from(b).to_digit(16)?))
}

/// A code's character; U+FFFD for surrogates and codes above 10FFFF.
fn character(code: u32) -> char {
    char::from_u32(code).unwrap_or('\u{FFFD}')
}

/// What is met in a string that the original does not decide.
#[derive(Clone, Copy)]
pub struct Met<'a> {
    /// A high surrogate followed by four hex digits that are no low one: there the original wraps, and document 01's rule of one
    /// U+FFFD for both groups stands.
    pub outside: &'a Cell<bool>,
    /// A directive that names one of the pages B to I, which the original reads and forgets. Without this cell it is forgotten here
    /// too, so that the rest of the string can be held against the original.
    pub paged: Option<&'a Cell<bool>>,
}

/// The text between a string's first and last byte.
pub fn decode(raw: &[u8], met: Met<'_>) -> String {
    let mut out = String::with_capacity(raw.len());
    let mut rest = raw;
    let mut page = 0;
    while let Some(&b) = rest.first() {
        let taken = match b {
            b'\'' if rest.get(1) == Some(&b'\'') => {
                out.push('\'');
                2
            }
            b'\\' => directive(rest, &mut out, &mut page, met).unwrap_or_else(|| {
                out.push('\\');
                1
            }),
            0..=0x7F => {
                out.push(char::from(b));
                1
            }
            _ => {
                let whole = (2..=4).find_map(|n| std::str::from_utf8(rest.get(..n)?).ok());
                match whole {
                    // A valid sequence of n bytes that starts high is one character only if it is the shortest.
                    Some(s) => {
                        out.push_str(s);
                        s.len()
                    }
                    None => {
                        out.push(char::from(b));
                        1
                    }
                }
            }
        };
        rest = &rest[taken..];
    }
    out
}

/// Puts what the directive at the start of `s` says, and answers its length; none for a literal backslash.
fn directive(s: &[u8], out: &mut String, page: &mut usize, met: Met<'_>) -> Option<usize> {
    match s {
        [_, b'\\', ..] => {
            out.push('\\');
            Some(2)
        }
        [_, b'N', b'\\', ..] => {
            out.push('\n');
            Some(3)
        }
        [_, b'T', b'\\', ..] => {
            out.push('\t');
            Some(3)
        }
        [_, b'P', name, b'\\', ..] => {
            if let Some(paged) = met.paged {
                *page = pages::named(*name);
                paged.set(paged.get() || *page > 0);
            }
            Some(4)
        }
        [_, b'S', b'\\', c, ..] => {
            out.push(character(pages::code(*page, *c)));
            Some(4)
        }
        [_, b'X', b'\\', high, low, ..] => {
            out.push(character(hex(&[*high, *low])?));
            Some(5)
        }
        [_, b'X', b'2', b'\\', ..] => groups(s, 4, out, met),
        [_, b'X', b'4', b'\\', ..] => groups(s, 8, out, met),
        _ => None,
    }
}

/// Groups up to the end or a backslash at a group's start. A bad group leaves the characters already put.
fn groups(s: &[u8], width: usize, out: &mut String, met: Met<'_>) -> Option<usize> {
    let mut i = 4;
    // A group cut short by the end is literal: what is left is read on as ordinary text.
    while i + width <= s.len() && s[i] != b'\\' {
        let code = hex(&s[i..i + width])?;
        i += width;
        if width == 4 && (0xD800..=0xDBFF).contains(&code) {
            let second = hex(s.get(i..i + 4)?)?;
            i += 4;
            if (0xDC00..=0xDFFF).contains(&second) {
                out.push(character(
                    0x10000 + ((code - 0xD800) << 10 | (second - 0xDC00)),
                ));
            } else {
                met.outside.set(true);
                out.push('\u{FFFD}');
            }
        } else {
            out.push(character(code));
        }
    }
    // `\X0` there is eaten with the byte after it.
    if s[i..].starts_with(b"\\X0") {
        i = (i + 4).min(s.len());
    }
    Some(i)
}
