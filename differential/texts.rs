//! What the Rust original decodes of strings, in the lines that the program `compare_strings` reads and prints.
//!
//!     texts          answers lines `HEX` or `ROOM:HEX` of standard input
//!     texts rooms    writes for each line `HEX` lines with rooms of 0, one byte too few, just enough and one byte more
//!
//! The text is the original's. 16 is arithmetic: a text that is not the string itself and is longer than the room. The words for a
//! line that is no string are the program's own.
//!
//! Outside the domain of equality, where a `\X2\` high surrogate is followed by four hex digits that are no low surrogate, the
//! original wraps and document 01 has a rule of its own, so there the text is `reading`'s, a second decoder by document 01's words. It
//! is held against the original at every line: with the original's sum for such a pair it must give the original's text.
//!
//! A string in which a directive names one of the pages B to I (request #109) the original does not decide either: it forgets the
//! page. Such a line is answered by the word `paged` alone, and texts.sh asks pages.py for it. The rooms of such a string are
//! `reading`'s. The original's text is still held against the reading there, with the pages forgotten.
//!
//! How many lines are outside, those that are `paged` aside, and how many are `paged` goes to standard error.
use cad_step::value::decode_string;
use std::borrow::Cow;
use std::io::{Read, Write};

// build.sh puts this file one folder below the oracle's.
#[path = "../pages.rs"]
mod pages;

/// The program compared with has a room of so many bytes, and takes a line that is shorter.
const ROOM: usize = 65536;

/// Where the papers and the original part.
struct Rules {
    /// The character of a `\X2\` high surrogate and the group after it.
    joined: fn(u32, u32) -> u32,
    /// The code of `\S\c` on a page.
    shifted: fn(usize, u8) -> u32,
}

/// Document 01: a high and a low surrogate join; a high one and another group give U+FFFD together. Request #109: the page's code.
const BY_THE_PAPERS: Rules = Rules {
    joined: |high, second| if LOW.contains(&second) { sum(high, second) } else { 0xFFFD },
    shifted: pages::code,
};

const BY_THE_ORIGINAL: Rules = Rules {
    joined: sum,
    shifted: |_, c| u32::from(c) + 128,
};

/// A text by rules, whether the string is outside the domain of equality, and whether it names one of the pages B to I.
struct Reading {
    rules: Rules,
    text: String,
    page: usize,
    outside: bool,
    paged: bool,
}

const LOW: std::ops::Range<u32> = 0xDC00..0xE000;

fn sum(high: u32, second: u32) -> u32 {
    (0x1_0000 + ((high - 0xD800) << 10)).wrapping_add(second.wrapping_sub(0xDC00))
}

fn hex(digits: &[u8]) -> Option<u32> {
    digits.iter().try_fold(0u32, |n, b| Some(n << 4 | (*b as char).to_digit(16)?))
}

fn shown(code: u32) -> char {
    char::from_u32(code).unwrap_or('\u{FFFD}')
}

fn reading(s: &[u8], rules: Rules) -> Reading {
    let mut r = Reading {
        rules,
        text: String::new(),
        page: 0,
        outside: false,
        paged: false,
    };
    let mut at = 0;
    while at < s.len() {
        at += r.piece(&s[at..]);
    }
    r
}

impl Reading {
    fn put(&mut self, code: u32, used: usize) -> usize {
        self.text.push(shown(code));
        used
    }

    /// Reads the piece that the bytes begin with, and answers how many bytes it takes.
    fn piece(&mut self, s: &[u8]) -> usize {
        match s {
            [b'\'', b'\'', ..] => self.put(0x27, 2),
            [b'\\', b'\\', ..] => self.put(0x5C, 2),
            [b'\\', b'N', b'\\', ..] => self.put(0x0A, 3),
            [b'\\', b'T', b'\\', ..] => self.put(0x09, 3),
            [b'\\', b'P', name, b'\\', ..] => {
                self.page = pages::named(*name);
                self.paged |= self.page > 0;
                4
            }
            [b'\\', b'S', b'\\', c, ..] => self.put((self.rules.shifted)(self.page, *c), 4),
            [b'\\', b'X', b'\\', a, b, ..] if hex(&[*a, *b]).is_some() => self.put(hex(&[*a, *b]).unwrap(), 5),
            [b'\\', b'X', b'2', b'\\', rest @ ..] => self.groups(rest, 4),
            [b'\\', b'X', b'4', b'\\', rest @ ..] => self.groups(rest, 8),
            [b @ 0..=0x7F, ..] => self.put(u32::from(*b), 1),
            _ => {
                let one = (2..=4.min(s.len())).find(|n| std::str::from_utf8(&s[..*n]).is_ok());
                match one {
                    Some(n) => {
                        self.text.push_str(std::str::from_utf8(&s[..n]).unwrap());
                        n
                    }
                    None => self.put(u32::from(s[0]), 1),
                }
            }
        }
    }

    /// The groups behind the four bytes of a directive.
    fn groups(&mut self, s: &[u8], width: usize) -> usize {
        let mut at = 0;
        while s.len() - at >= width && s[at] != b'\\' {
            let Some(code) = hex(&s[at..at + width]) else {
                return self.put(0x5C, 1);
            };
            if width == 4 && (0xD800..0xDC00).contains(&code) {
                let Some(second) = s.get(at + 4..at + 8).and_then(hex) else {
                    return self.put(0x5C, 1);
                };
                self.outside |= !LOW.contains(&second);
                at += self.put((self.rules.joined)(code, second), 8);
            } else {
                at += self.put(code, width);
            }
        }
        if s[at..].starts_with(b"\\X0") {
            at += 4.min(s.len() - at);
        }
        4 + at
    }
}

/// The bytes and the room of a line, or what is wrong with it.
fn asked(line: &[u8]) -> Result<(Vec<u8>, Option<usize>), &'static str> {
    if line.len() >= ROOM {
        return Err("too long for this program");
    }
    let colon = line.iter().position(|b| *b == b':');
    let room = match colon {
        None => None,
        Some(n) => {
            let digits = std::str::from_utf8(&line[..n]).unwrap_or("");
            let room = match digits.len() {
                1..=9 if digits.bytes().all(|b| b.is_ascii_digit()) => digits.parse().unwrap(),
                _ => usize::MAX,
            };
            if room > ROOM {
                return Err("no room of at most 65536 bytes before the colon");
            }
            Some(room)
        }
    };
    let digits = &line[colon.map_or(0, |n| n + 1)..];
    let bytes: Option<Vec<u8>> = digits.chunks(2).map(|two| hex(two).map(|n| n as u8)).collect();
    match bytes {
        Some(bytes) if digits.len() % 2 == 0 => Ok((bytes, room)),
        _ => Err("not hex digits in pairs"),
    }
}

fn put_hex(out: &mut Vec<u8>, bytes: &[u8]) {
    for b in bytes {
        out.push(b"0123456789abcdef"[usize::from(b >> 4)]);
        out.push(b"0123456789abcdef"[usize::from(b & 15)]);
    }
}

struct Decoded {
    /// The original's, or the papers' where the string is outside or names one of the pages B to I.
    text: Vec<u8>,
    /// Whether the text is the string itself.
    plain: bool,
    outside: bool,
    paged: bool,
}

fn decoded(s: &[u8]) -> Decoded {
    let original = decode_string(s);
    let checked = reading(s, BY_THE_ORIGINAL);
    if checked.text != *original {
        eprintln!("texts: the original and its reading differ at {s:02X?}");
        std::process::exit(1);
    }
    let plain = matches!(original, Cow::Borrowed(_));
    let apart = checked.outside || checked.paged;
    let text = if apart { reading(s, BY_THE_PAPERS).text } else { original.into_owned() };
    Decoded {
        text: text.into_bytes(),
        plain,
        outside: checked.outside,
        paged: checked.paged,
    }
}

fn main() {
    let rooms = std::env::args().nth(1).as_deref() == Some("rooms");
    let mut text = Vec::new();
    std::io::stdin().lock().read_to_end(&mut text).expect("standard input");
    let mut lines: Vec<&[u8]> = text.split(|b| *b == b'\n').collect();
    if lines.last().is_some_and(|l| l.is_empty()) {
        lines.pop();
    }
    let mut out = Vec::with_capacity(text.len() * 2);
    let (mut outside, mut paged) = (0, 0);
    for (i, line) in lines.iter().enumerate() {
        let (s, room) = match asked(line) {
            Ok(both) => both,
            Err(why) => {
                out.extend_from_slice(format!("line {}: {why}\n", i + 1).as_bytes());
                continue;
            }
        };
        let shown = decoded(&s);
        outside += usize::from(shown.outside && !shown.paged);
        paged += usize::from(shown.paged);
        if rooms {
            let n = shown.text.len();
            let mut sizes = vec![0, n.saturating_sub(1), n, n + 1];
            sizes.dedup();
            for size in sizes {
                out.extend_from_slice(format!("{size}:").as_bytes());
                out.extend_from_slice(line);
                out.push(b'\n');
            }
            continue;
        }
        if shown.paged {
            out.extend_from_slice(b"paged\n");
            continue;
        }
        if !shown.plain && room.is_some_and(|n| shown.text.len() > n) {
            out.extend_from_slice(b"16\n");
            continue;
        }
        out.extend_from_slice(if shown.plain { b"plain " } else { b"text " });
        put_hex(&mut out, &shown.text);
        out.push(b'\n');
    }
    std::io::stdout().lock().write_all(&out).expect("standard output");
    eprintln!("outside {outside} paged {paged}");
}
