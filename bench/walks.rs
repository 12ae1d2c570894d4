//! The proved argument reader beside the Rust original's `Args`, in one executable; see walks.sh.
//!
//!   walks FILE..             the tables: all parameters of each file by `skip`, the coordinates of its CARTESIAN_POINTs that are of document 01's class,
//!                            and all of them, by the reader of any real
//!   walks once SIDE WHAT FILE  one walk by one side, `rust`, `proved` or `none`, of `skip`, `points` or `all`, for a count of instructions
#[path = "src/clock.rs"]
#[allow(dead_code)]
mod clock;

use cad_step::scan::scan;
use cad_step::value::Args;
use clock::{keep_memory, least};
use std::ops::Range;

unsafe extern "C" {
    fn hooflift_skip(file: *const u8, len: usize, place: *mut usize, end: usize, fault: *mut usize) -> u8;
    fn hooflift_f64_list(
        file: *const u8,
        len: usize,
        place: *mut usize,
        end: usize,
        out: *mut f64,
        out_len: usize,
        count: *mut usize,
        fault: *mut usize,
    ) -> u8;
    fn hooflift_any_f64_list(
        file: *const u8,
        len: usize,
        place: *mut usize,
        end: usize,
        out: *mut f64,
        out_len: usize,
        count: *mut usize,
        fault: *mut usize,
    ) -> u8;
}

/// A reader of a list of reals: of document 01's class, or of any.
type ListReader = unsafe extern "C" fn(*const u8, usize, *mut usize, usize, *mut f64, usize, *mut usize, *mut usize) -> u8;

const ROUNDS: usize = 60;

/// A file's bytes and the argument spans of its records, and of its points.
struct Case {
    name: String,
    file: Vec<u8>,
    spans: Vec<Range<u32>>,
    points: Vec<Range<u32>>,
    all: Vec<Range<u32>>,
}

fn case(name: &str) -> Option<Case> {
    let file = std::fs::read(name).expect("the file cannot be read");
    let found = scan(&file).ok()?;
    let spans: Vec<_> = found.records.iter().map(|r| r.args.clone()).collect();
    let points: Vec<_> = found
        .records
        .iter()
        .filter(|r| &file[r.keyword.start as usize..r.keyword.end as usize] == b"CARTESIAN_POINT")
        .map(|r| r.args.clone())
        .collect();
    let all = points.clone();
    let points = of_the_class(&file, points);
    let short = name.rsplit('/').next().unwrap_or(name).to_string();
    Some(Case { name: short, file, spans, points, all })
}

/// The points whose coordinates are all reals of document 01's class: the others are 13 to the proved side.
fn of_the_class(file: &[u8], mut points: Vec<Range<u32>>) -> Vec<Range<u32>> {
    let one = |span: &Range<u32>| proved_point(hooflift_f64_list, file, span, &mut [0f64; 64]).is_some();
    points.retain(one);
    points
}

/// How many parameters there are, and the sum of the places after them.
fn rust_skip(c: &Case) -> (usize, usize) {
    let (mut n, mut sum) = (0, 0usize);
    for span in &c.spans {
        let mut args = Args::new(&c.file, span.clone());
        while args.skip().is_ok() {
            n += 1;
            sum = sum.wrapping_add(args.offset());
        }
    }
    (n, sum)
}

fn proved_skip(c: &Case) -> (usize, usize) {
    let (mut n, mut sum) = (0, 0usize);
    for span in &c.spans {
        let (mut place, end, mut fault) = (span.start as usize, span.end as usize, 0);
        // SAFETY: the slice's place and length, and places for two numbers.
        while unsafe { hooflift_skip(c.file.as_ptr(), c.file.len(), &mut place, end, &mut fault) } == 0 {
            n += 1;
            sum = sum.wrapping_add(place);
        }
    }
    (n, sum)
}

/// How many coordinates there are, and the exclusive or of their bits.
fn rust_of(c: &Case, points: &[Range<u32>]) -> (usize, u64) {
    let (mut n, mut bits) = (0, 0);
    let mut list = Vec::new();
    for span in points {
        let mut args = Args::new(&c.file, span.clone());
        list.clear();
        if args.skip().is_ok() && args.next_f64_list(&mut list).is_ok() {
            n += list.len();
            for x in &list {
                bits ^= x.to_bits().rotate_left(n as u32);
            }
        }
    }
    (n, bits)
}

fn rust_points(c: &Case) -> (usize, u64) {
    rust_of(c, &c.points)
}

fn rust_all(c: &Case) -> (usize, u64) {
    rust_of(c, &c.all)
}

/// How many coordinates a point has, if it reads.
#[inline(always)]
fn proved_point(read: ListReader, file: &[u8], span: &Range<u32>, list: &mut [f64; 64]) -> Option<usize> {
    let (mut place, end, mut fault, mut count) = (span.start as usize, span.end as usize, 0, 0);
    // SAFETY: the slices' places and lengths, and places for three numbers.
    let code = unsafe {
        let skipped = hooflift_skip(file.as_ptr(), file.len(), &mut place, end, &mut fault);
        if skipped == 0 {
            read(file.as_ptr(), file.len(), &mut place, end, list.as_mut_ptr(), list.len(), &mut count, &mut fault)
        } else {
            skipped
        }
    };
    (code == 0).then_some(count)
}

#[inline(always)]
fn proved_of(read: ListReader, c: &Case, points: &[Range<u32>]) -> (usize, u64) {
    let (mut n, mut bits) = (0, 0);
    let mut list = [0f64; 64];
    for span in points {
        if let Some(count) = proved_point(read, &c.file, span, &mut list) {
            n += count;
            for x in &list[..count] {
                bits ^= x.to_bits().rotate_left(n as u32);
            }
        }
    }
    (n, bits)
}

fn proved_points(c: &Case) -> (usize, u64) {
    proved_of(hooflift_f64_list, c, &c.points)
}

fn proved_all(c: &Case) -> (usize, u64) {
    proved_of(hooflift_any_f64_list, c, &c.all)
}

/// Both sides in turn: the least time of each, after they agreed.
fn both<T: PartialEq + std::fmt::Debug>(c: &Case, rust: fn(&Case) -> T, proved: fn(&Case) -> T) -> (u64, u64) {
    assert_eq!(rust(c), proved(c), "the two differ on {}", c.name);
    let (mut a, mut b) = (u64::MAX, u64::MAX);
    for _ in 0..ROUNDS {
        least(&mut a, || rust(c));
        least(&mut b, || proved(c));
    }
    (a, b)
}

fn row(name: &str, count: usize, what: (u64, u64)) {
    let each = |t: u64| t as f64 / count as f64;
    println!("| {name} | {count} | {:.1} | {:.1} | {:.2} |", each(what.0), each(what.1), what.1 as f64 / what.0 as f64);
}

fn main() {
    keep_memory();
    let words: Vec<String> = std::env::args().skip(1).collect();
    if words.first().is_some_and(|w| w == "once") {
        let c = case(&words[3]).expect("the file is refused");
        match (words[1].as_str(), words[2].as_str()) {
            ("rust", "skip") => println!("{:?}", rust_skip(&c)),
            ("proved", "skip") => println!("{:?}", proved_skip(&c)),
            ("rust", "points") => println!("{:?}", rust_points(&c)),
            ("proved", "points") => println!("{:?}", proved_points(&c)),
            ("rust", "all") => println!("{:?}", rust_all(&c)),
            ("proved", "all") => println!("{:?}", proved_all(&c)),
            _ => println!("none"),
        }
        return;
    }
    let cases: Vec<Case> = words.iter().filter_map(|w| case(w)).filter(|c| c.file.len() >= 100_000).collect();
    println!("| all parameters of | parameters | Rust ns each | proved ns each | proved / Rust |\n|---|---|---|---|---|");
    for c in &cases {
        row(&c.name, rust_skip(c).0, both(c, rust_skip, proved_skip));
    }
    println!("\n| coordinates of | numbers | Rust ns each | proved ns each | proved / Rust |\n|---|---|---|---|---|");
    for c in cases.iter().filter(|c| c.points.len() > 100) {
        row(&c.name, rust_points(c).0, both(c, rust_points, proved_points));
    }
    println!("\n| all coordinates, noise included, of | numbers | Rust ns each | proved ns each | proved / Rust |\n|---|---|---|---|---|");
    for c in cases.iter().filter(|c| c.all.len() > 100) {
        row(&c.name, rust_all(c).0, both(c, rust_all, proved_all));
    }
}
