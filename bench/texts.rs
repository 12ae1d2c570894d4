//! The proved decoding of a string beside the Rust original's `decode_string`, in one executable; see texts.sh.
//!
//!   texts                 the tables: lists of strings, and time against length
//!   texts lists           the first table alone
//!   texts once SIDE LIST  one reading of a list, `plain`, `escaped` or its number in the table, by one side, `rust` or `proved`, for a count of
//!                      instructions; `none` reads none; prints how many strings the list has
#[path = "src/clock.rs"]
#[allow(dead_code)]
mod clock;

use cad_step::value::decode_string;
use clock::{keep_memory, least};
use std::borrow::Cow;
use std::hint::black_box;

unsafe extern "C" {
    fn hooflift_text(
        raw: *const u8,
        raw_len: usize,
        out: *mut u8,
        out_len: usize,
        place: *mut u64,
        count: *mut u64,
    ) -> u8;
}

/// Bytes of a list, and how often it is read.
const SIZE: usize = 4_000_000;
const ROUNDS: usize = 40;

/// How long the text is, and whether it is the string itself. The room suffices.
fn proved(raw: &[u8], out: &mut [u8]) -> (usize, bool) {
    let (mut place, mut count) = (0, 0);
    // SAFETY: places and lengths of two slices, and places for two numbers.
    let code = unsafe {
        hooflift_text(raw.as_ptr(), raw.len(), out.as_mut_ptr(), out.len(), &mut place, &mut count)
    };
    assert_eq!(code, 0);
    (count as usize, place == 0)
}

/// Ends the program where the two sides differ.
fn agree(name: &str, raw: &[u8], out: &mut [u8]) {
    let text = decode_string(raw);
    let (n, plain) = proved(raw, out);
    let shown = if plain { raw } else { &out[..n] };
    if shown != text.as_bytes() || n != text.len() || plain != matches!(text, Cow::Borrowed(_)) {
        eprintln!("texts: {name}: the two differ at {:02X?}", &raw[..raw.len().min(100)]);
        std::process::exit(1);
    }
}

/// The page that the lists with a page name: ISO 8859-7, whose letters lie 2D0 above their codes.
const GREEK: &[u8] = b"\\PG\\";

/// Whether the proved text of Greek letters, each a `\S\`, and plain bytes is right; the original reads the page and forgets it.
fn greek(name: &str, raw: &[u8], out: &mut [u8]) {
    let mut text = String::new();
    let mut rest = raw.strip_prefix(GREEK).expect("a page");
    while let [first, after @ ..] = rest {
        match rest {
            [b'\\', b'S', b'\\', c, after @ ..] => {
                text.push(char::from_u32(u32::from(*c) + 128 + 0x2D0).expect("a letter"));
                rest = after;
            }
            _ => {
                text.push(char::from(*first));
                rest = after;
            }
        }
    }
    let (n, plain) = proved(raw, out);
    if plain || &out[..n] != text.as_bytes() {
        eprintln!("texts: {name}: another text at {:02X?}", &raw[..raw.len().min(100)]);
        std::process::exit(1);
    }
}

/// splitmix64
struct Draw(u64);

impl Draw {
    fn next(&mut self) -> u64 {
        self.0 = self.0.wrapping_add(0x9E37_79B9_7F4A_7C15);
        let mut z = self.0;
        z = (z ^ (z >> 30)).wrapping_mul(0xBF58_476D_1CE4_E5B9);
        z = (z ^ (z >> 27)).wrapping_mul(0x94D0_49BB_1331_11EB);
        z ^ (z >> 31)
    }

    fn below(&mut self, n: usize) -> usize {
        (self.next() >> 11) as usize % n
    }

    /// A word of so many letters, digits and marks, as part names have them.
    fn word(&mut self, least: usize, most: usize) -> Vec<u8> {
        let n = least + self.below(most - least + 1);
        (0..n).map(|_| b"abcdefghijklmnopqrstuvwxyzABCDEFGHIJKLM0123456789_-. "[self.below(53)]).collect()
    }
}

/// Strings of one kind, one after the other, and where each ends.
struct List {
    name: &'static str,
    bytes: Vec<u8>,
    ends: Vec<usize>,
}

impl List {
    fn new(name: &'static str, seed: u64, one: impl Fn(&mut Draw) -> Vec<u8>) -> List {
        let mut draw = Draw(seed);
        let mut list = List { name, bytes: Vec::new(), ends: Vec::new() };
        while list.bytes.len() < SIZE {
            list.bytes.extend_from_slice(&one(&mut draw));
            list.ends.push(list.bytes.len());
        }
        list
    }

    fn each(&self, mut run: impl FnMut(&[u8])) {
        let mut start = 0;
        for end in &self.ends {
            run(&self.bytes[start..*end]);
            start = *end;
        }
    }
}

/// A word, something escaped, and a word.
fn around(d: &mut Draw, middle: &[u8]) -> Vec<u8> {
    let mut s = d.word(3, 10);
    s.extend_from_slice(middle);
    s.extend_from_slice(&d.word(3, 10));
    s
}

/// So many letters, each a `\S\` with a byte from 61 up: Greek on page G.
fn shifted(d: &mut Draw, n: usize) -> Vec<u8> {
    (0..n).flat_map(|_| [b'\\', b'S', b'\\', b'a' + d.below(24) as u8]).collect()
}

fn groups(d: &mut Draw, directive: &str, n: usize, width: usize, first: usize, codes: usize) -> Vec<u8> {
    let digits: String = (0..n).map(|_| format!("{:0width$X}", first + d.below(codes))).collect();
    format!("\\{directive}\\{digits}\\X0\\").into_bytes()
}

fn plain_names() -> List {
    List::new("plain, 6 to 20 bytes", 1, |d| d.word(6, 20))
}

fn escaped_names() -> List {
    List::new("one letter as `\\X2\\00E4\\X0\\` in a name", 2, |d| {
        let g = groups(d, "X2", 1, 4, 0xC0, 64);
        around(d, &g)
    })
}

fn lists() -> Vec<List> {
    vec![
        plain_names(),
        escaped_names(),
        List::new("plain, 100 bytes", 3, |d| d.word(100, 100)),
        List::new("plain, 1,000 bytes", 4, |d| d.word(1000, 1000)),
        List::new("one letter as `\\X\\E4`", 5, |d| around(d, b"\\X\\E4")),
        List::new("one letter as `\\S\\d`", 6, |d| around(d, b"\\S\\d")),
        List::new("one letter in raw UTF-8", 7, |d| around(d, "ä".as_bytes())),
        List::new("one letter in raw Latin-1", 8, |d| around(d, b"\xE4")),
        List::new("one doubled quote", 9, |d| around(d, b"''")),
        List::new("a path with doubled backslashes", 10, |d| [&b"C:\\\\"[..], &d.word(4, 8), b"\\\\", &d.word(4, 8)].concat()),
        List::new("a path with lone backslashes", 11, |d| [&b"C:\\q"[..], &d.word(4, 8), b"\\q", &d.word(4, 8)].concat()),
        List::new("8 Han characters in one `\\X2\\`", 12, |d| groups(d, "X2", 8, 4, 0x4E00, 0x5000)),
        List::new("100 Han characters in one `\\X2\\`", 13, |d| groups(d, "X2", 100, 4, 0x4E00, 0x5000)),
        List::new("100 times the same Han character", 17, |d| groups(d, "X2", 100, 4, 0x4E2D, 1)),
        List::new("4 emoji in one `\\X4\\`", 14, |d| groups(d, "X4", 4, 8, 0x1F600, 80)),
        List::new("30 Han characters in raw UTF-8", 15, |d| {
            (0..30).map(|_| char::from_u32(0x4E00 + d.below(0x5000) as u32).unwrap()).collect::<String>().into_bytes()
        }),
        List::new("a bad group in a name", 16, |d| around(d, b"\\X2\\00E400Z4\\X0\\")),
        List::new("12 letters as `\\S\\`, on page A", 18, |d| shifted(d, 12)),
        List::new("12 letters as `\\S\\`, on page G", 19, |d| [GREEK, &shifted(d, 12)].concat()),
        List::new("two words of 6 letters as `\\S\\`, on page G", 20, |d| [GREEK, &shifted(d, 6), b" ", &shifted(d, 6), b" 12"].concat()),
    ]
}

#[inline(never)]
fn rust_list(list: &List) -> usize {
    let mut sum = 0;
    list.each(|s| sum += black_box(decode_string(s)).len());
    sum
}

#[inline(never)]
fn proved_list(list: &List, out: &mut [u8]) -> usize {
    let mut sum = 0;
    list.each(|s| sum += black_box(proved(s, out)).0);
    sum
}

fn list_table(out: &mut [u8]) {
    println!("| strings | bytes each | Rust ns each | proved ns each | proved / Rust |");
    println!("|---|---|---|---|---|");
    for list in lists() {
        list.each(|s| if s.starts_with(GREEK) { greek(list.name, s, out) } else { agree(list.name, s, out) });
        let (mut a, mut b) = (u64::MAX, u64::MAX);
        for _ in 0..ROUNDS {
            least(&mut a, || rust_list(black_box(&list)));
            least(&mut b, || proved_list(black_box(&list), out));
        }
        let each = |n: u64| n as f64 / list.ends.len() as f64;
        let bytes = each(list.bytes.len() as u64);
        println!("| {} | {bytes:.1} | {:.1} | {:.1} | {:.2} |", list.name, each(a), each(b), b as f64 / a as f64);
    }
}

/// A start, what is repeated (where it is empty, groups of four drawn hex digits that are no surrogate), and an end.
type Hostile = (&'static str, &'static [u8], &'static [u8], &'static [u8]);

const HOSTILE: [Hostile; 12] = [
    ("plain", b"", b"a", b""),
    ("`\\X2\\ZZZZ` again and again", b"", b"\\X2\\ZZZZ", b""),
    ("`\\X2\\D83D` again and again", b"", b"\\X2\\D83D", b""),
    ("`\\X2\\0041` again and again", b"", b"\\X2\\0041", b""),
    ("`\\X2\\`, `0041` and a bad group at the end", b"\\X2\\", b"0041", b"ZZZZ"),
    ("`\\X4\\`, `0001F600` and a bad group at the end", b"\\X4\\", b"0001F600", b"0000000Z"),
    ("`\\X2\\`, drawn digits and a bad group at the end", b"\\X2\\", b"", b"ZZZZ"),
    ("`\\X2\\` and drawn digits", b"\\X2\\", b"", b"\\X0\\"),
    ("`\\X2\\` and `00E4`", b"\\X2\\", b"00E4", b"\\X0\\"),
    ("backslashes", b"", b"\\", b""),
    ("the bytes E2 82, a sequence cut short", b"", b"\xE2\x82", b""),
    ("the byte 80", b"", b"\x80", b""),
];

fn made(case: &Hostile, size: usize, seed: u64) -> Vec<u8> {
    let (_, start, piece, end) = case;
    let mut draw = Draw(seed);
    let mut s = start.to_vec();
    while s.len() + piece.len().max(4) + end.len() <= size {
        match piece {
            [] => s.extend_from_slice(format!("{:04X}", draw.below(0xD800)).as_bytes()),
            _ => s.extend_from_slice(piece),
        }
    }
    s.extend_from_slice(end);
    s
}

/// Nanoseconds a byte of both sides: the least of some rounds, each of a megabyte at least. Drawn digits differ from string to string:
/// a processor learns the jumps of a short one that is read again and again.
fn growth(case: &Hostile, size: usize, out: &mut [u8]) -> (f64, f64) {
    let again = (1_000_000 / size).max(1);
    let strings: Vec<Vec<u8>> = (0..again).map(|k| made(case, size, k as u64)).collect();
    strings.iter().for_each(|s| agree(case.0, s, out));
    let bytes = strings.iter().map(|s| s.len()).sum::<usize>();
    let rounds = (50_000_000 / bytes).clamp(3, 20);
    let (mut a, mut b) = (u64::MAX, u64::MAX);
    for _ in 0..rounds {
        least(&mut a, || strings.iter().map(|s| black_box(decode_string(black_box(s))).len()).sum::<usize>());
        least(&mut b, || strings.iter().map(|s| black_box(proved(black_box(s), out)).0).sum::<usize>());
    }
    let each = |n: u64| n as f64 / bytes as f64;
    (each(a), each(b))
}

fn growth_table(out: &mut [u8]) {
    let sizes = [1_000, 10_000, 100_000, 1_000_000, 10_000_000, 100_000_000];
    println!("| string, ns a byte | side | 1 KB | 10 KB | 100 KB | 1 MB | 10 MB | 100 MB |");
    println!("|---|---|---|---|---|---|---|---|");
    for case in &HOSTILE {
        let times: Vec<(f64, f64)> = sizes.iter().map(|size| growth(case, *size, out)).collect();
        let row = |side: fn(&(f64, f64)) -> f64| times.iter().map(|t| format!(" {:.2} |", side(t))).collect::<String>();
        println!("| {} | Rust |{}", case.0, row(|t| t.0));
        println!("| | proved |{}", row(|t| t.1));
    }
}

fn main() {
    keep_memory();
    let mut args = std::env::args().skip(1);
    let word = args.next();
    if word.as_deref() == Some("once") {
        let mut out = vec![0u8; 4096];
        let side = args.next().unwrap_or_default();
        let list = match args.next().as_deref() {
            Some("escaped") => escaped_names(),
            Some("plain") | None => plain_names(),
            Some(n) => lists().swap_remove(n.parse::<usize>().expect("a list's number") - 1),
        };
        match side.as_str() {
            "rust" => black_box(rust_list(&list)),
            "proved" => black_box(proved_list(&list, &mut out)),
            _ => 0,
        };
        println!("{}", list.ends.len());
        return;
    }
    list_table(&mut vec![1u8; 4096]);
    if word.as_deref() == Some("lists") {
        return;
    }
    println!();
    // each byte of a string gives at most two of its text
    growth_table(&mut vec![1u8; 200_000_000]);
}
