//! The proved reading of a real beside Rust's `str::parse::<f64>`, on lists of a million decimals held in memory. Driver for
//! native.sh; see reals.sh.
//!
//!   reals            the tables: the class's reading and that of any real, and the long path's in microseconds
//!   reals once SIDE  one reading of the first list by one side, `rust`, `proved` or `any`, for a count of instructions; `none` reads none
use std::hint::black_box;

#[repr(C)]
struct Timespec {
    seconds: i64,
    nanoseconds: i64,
}

extern "C" {
    fn hooflift_real(text: *const u8, len: usize, out: *mut u64) -> u8;
    fn hooflift_any_real(text: *const u8, len: usize, out: *mut u64) -> u8;
    fn clock_gettime(clock: i32, time: *mut Timespec) -> i32;
}

const CLOCK_THREAD_CPUTIME_ID: i32 = 3;
const COUNT: usize = 1_000_000;
const ROUNDS: usize = 40;

fn thread_nanoseconds() -> u64 {
    let mut t = Timespec {
        seconds: 0,
        nanoseconds: 0,
    };
    // SAFETY: t is a place for one time.
    let failed = unsafe { clock_gettime(CLOCK_THREAD_CPUTIME_ID, &mut t) };
    assert_eq!(failed, 0);
    t.seconds as u64 * 1_000_000_000 + t.nanoseconds as u64
}

/// splitmix64
struct Draw(u64);

impl Draw {
    fn next(&mut self) -> u64 {
        self.0 = self.0.wrapping_add(0x9E37_79B9_7F4A_7C15);
        let mut z = self.0;
        z = (z ^ (z >> 30)).wrapping_mul(0xBF58_476D_1CE4_E5B9);
        z = (z ^ (z >> 27)).wrapping_mul(0x94D0_49BB_1331_11EB);
        z ^ (z >> 31)
    }

    fn below(&mut self, n: u64) -> u64 {
        (self.next() >> 11) % n
    }
}

/// Decimals of one kind, one after the other, and where each ends.
struct List {
    name: &'static str,
    text: String,
    ends: Vec<usize>,
}

impl List {
    fn new(name: &'static str, seed: u64, one: impl Fn(&mut Draw) -> String) -> List {
        let mut draw = Draw(seed);
        let mut list = List {
            name,
            text: String::new(),
            ends: Vec::with_capacity(COUNT),
        };
        for _ in 0..COUNT {
            list.text.push_str(&one(&mut draw));
            list.ends.push(list.text.len());
        }
        list
    }
}

fn sign(draw: &mut Draw) -> &'static str {
    if draw.below(3) == 0 { "-" } else { "" }
}

/// m with so many places after the point, as exchange files have it: `12.3456789`, `-0.5`, `25.`
fn pointed(draw: &mut Draw, digits: u32, places: usize) -> String {
    let m = draw.below(10u64.pow(digits));
    let figures = format!("{m:0width$}", width = places + 1);
    let (whole, fraction) = figures.split_at(figures.len() - places);
    format!("{}{whole}.{fraction}", sign(draw))
}

/// m of just so many digits, more than an f64 holds, as exporters write them that print what reads back: `0.017453292519943295`
fn long(draw: &mut Draw, digits: u32, places: usize) -> String {
    let least = 10u64.pow(digits - 1);
    let m = least + draw.next() % (9 * least);
    let figures = format!("{m:0width$}", width = places + 1);
    let (whole, fraction) = figures.split_at(figures.len() - places);
    format!("{}{whole}.{fraction}", sign(draw))
}

/// What the points and directions of a part are made of: most are short, many are whole.
fn coordinate(draw: &mut Draw) -> String {
    match draw.below(10) {
        0 | 1 => format!("{}{}.", sign(draw), draw.below(200)),
        2 | 3 => pointed(draw, 3, 1),
        4 | 5 => pointed(draw, 6, 3),
        6 | 7 => pointed(draw, 9, 7),
        8 => format!("{}{}.E-{}", sign(draw), 1 + draw.below(9), 1 + draw.below(7)),
        _ => pointed(draw, 15, 12),
    }
}

/// A zero with noise, as exporters write them: `-1.025893950136E-17`
fn noise(draw: &mut Draw, digits: u32) -> String {
    format!("{}E-{}", long(draw, digits, digits as usize - 1), 14 + draw.below(6))
}

/// Lists that the class does not have.
fn others() -> Vec<List> {
    vec![
        List::new("noise, as `-1.025893950136E-17`", 12, |d| noise(d, 13)),
        List::new("noise of sixteen digits, as `1.110223024625157E-16`", 13, |d| noise(d, 16)),
        List::new("coordinates, mixed, one in twenty noise", 14, |d| if d.below(20) == 0 { noise(d, 13) } else { coordinate(d) }),
    ]
}

/// Single decimals that go the long path, the worst of it among them.
fn longs() -> Vec<(&'static str, String)> {
    let tie = "1.00000000000000011102230246251565404236316680908203125";
    vec![
        ("twenty digits, as `1.2345678901234567890`", "1.2345678901234567890".to_string()),
        ("a tie of 53 digits, as `1.000000000000000111..`", tie.to_string()),
        ("the same, decided by its 800th digit", format!("{tie}{}1", "0".repeat(746))),
        ("1,200 digits, about 1", format!("1.{}", "7".repeat(1199))),
        ("1,384 digits, 309 of them before the point", format!("{}.{}", "1".repeat(309), "7".repeat(1075))),
        ("768 digits, a subnormal", format!("4.{}E-320", "9".repeat(767))),
        ("300 zeros behind a digit, as `1000..`", format!("1{}", "0".repeat(300))),
        ("one digit, as `1E300`", "1E300".to_string()),
        ("one digit, as `1E-300`", "1E-300".to_string()),
        ("100,000 digits", format!("0.{}", "123456789".repeat(11111))),
    ]
}

fn lists() -> Vec<List> {
    vec![
        List::new("coordinates, mixed", 1, coordinate),
        List::new("whole, as `25.`", 2, |d| format!("{}{}.", sign(d), d.below(1000))),
        List::new("short, as `-0.5`", 3, |d| pointed(d, 3, 1)),
        List::new("nine digits, as `12.3456789`", 4, |d| pointed(d, 9, 7)),
        List::new("fifteen digits, as `123.456789012345`", 5, |d| pointed(d, 15, 12)),
        List::new("exponent, as `1.E-3`", 6, |d| {
            format!("{}{}.E-{}", sign(d), 1 + d.below(9), 1 + d.below(9))
        }),
        List::new("sixteen digits, as `123.4567890123456`", 7, |d| long(d, 16, 13)),
        List::new("seventeen digits, as `0.017453292519943295`", 8, |d| long(d, 17, 18)),
        List::new("eighteen digits, as `12345.6789012345678`", 9, |d| long(d, 18, 13)),
        List::new("nineteen digits, as `1.234567890123456789`", 10, |d| long(d, 19, 18)),
        List::new("nineteen digits, as `1.234567890123456789E+25`", 11, |d| format!("{}E+25", long(d, 19, 18))),
    ]
}

#[inline(never)]
fn rust(list: &List, out: &mut [u64]) {
    let mut start = 0;
    for (end, place) in list.ends.iter().zip(out) {
        if let Ok(x) = list.text[start..*end].parse::<f64>() {
            *place = x.to_bits();
        }
        start = *end;
    }
}

#[inline(never)]
fn proved(list: &List, out: &mut [u64]) {
    let bytes = list.text.as_bytes();
    let mut start = 0;
    for (end, place) in list.ends.iter().zip(out) {
        let one = &bytes[start..*end];
        // SAFETY: a slice's place and length, and a place for one number.
        unsafe { hooflift_real(one.as_ptr(), one.len(), place) };
        start = *end;
    }
}

#[inline(never)]
fn any(list: &List, out: &mut [u64]) {
    let bytes = list.text.as_bytes();
    let mut start = 0;
    for (end, place) in list.ends.iter().zip(out) {
        let one = &bytes[start..*end];
        // SAFETY: a slice's place and length, and a place for one number.
        unsafe { hooflift_any_real(one.as_ptr(), one.len(), place) };
        start = *end;
    }
}

/// The least time of one decimal by each side, in microseconds.
fn one(text: &str) -> (f64, f64) {
    let (mut a, mut b) = (u64::MAX, u64::MAX);
    let times = 1 + 200_000 / text.len();
    let mut bits = 0;
    for _ in 0..ROUNDS {
        let begin = thread_nanoseconds();
        for _ in 0..times {
            black_box(black_box(text).parse::<f64>().ok());
        }
        let middle = thread_nanoseconds();
        for _ in 0..times {
            // SAFETY: a slice's place and length, and a place for one number.
            black_box(unsafe { hooflift_any_real(black_box(text).as_ptr(), text.len(), &mut bits) });
        }
        let end = thread_nanoseconds();
        a = a.min(middle - begin);
        b = b.min(end - middle);
    }
    assert_eq!(text.parse::<f64>().map(f64::to_bits), Ok(bits), "the two differ on {text}");
    let each = |n: u64| n as f64 / times as f64 / 1000.0;
    (each(a), each(b))
}

fn time(side: fn(&List, &mut [u64]), list: &List, out: &mut [u64]) -> u64 {
    let begin = thread_nanoseconds();
    side(black_box(list), black_box(out));
    thread_nanoseconds() - begin
}

fn main() {
    let mut args = std::env::args().skip(1);
    let mut out = vec![0u64; COUNT];
    if args.next().as_deref() == Some("once") {
        let list = &lists()[0];
        match args.next().as_deref() {
            Some("rust") => rust(list, &mut out),
            Some("proved") => proved(list, &mut out),
            Some("any") => any(list, &mut out),
            _ => {}
        }
        black_box(out);
        return;
    }
    println!("| decimals | bytes each | Rust ns each | class ns each | class / Rust | any ns each | any / Rust |");
    println!("|---|---|---|---|---|---|---|");
    for (list, classed) in lists().into_iter().map(|l| (l, true)).chain(others().into_iter().map(|l| (l, false))) {
        row(&list, classed, &mut out);
    }
    println!("\n| one decimal | Rust us | any us |\n|---|---|---|");
    for (name, text) in longs() {
        let (a, b) = one(&text);
        println!("| {name} | {a:.3} | {b:.3} |");
    }
}

/// A list's times by each side; the class's only where it reads all of them.
fn row(list: &List, classed: bool, out: &mut [u64]) {
    let mut other = vec![1u64; COUNT];
    let mut sides: Vec<fn(&List, &mut [u64])> = vec![rust, any];
    if classed {
        sides.push(proved);
    }
    rust(list, out);
    for side in &sides[1..] {
        side(list, &mut other);
        if let Some(i) = (0..COUNT).find(|i| out[*i] != other[*i]) {
            eprintln!("reals: {}: the two differ at {i}", list.name);
            std::process::exit(1);
        }
    }
    let mut least = vec![u64::MAX; sides.len()];
    for _ in 0..ROUNDS {
        for (side, t) in sides.iter().zip(&mut least) {
            *t = (*t).min(time(*side, list, &mut other));
        }
    }
    let each = |n: u64| n as f64 / COUNT as f64;
    let ratio = |n: u64| n as f64 / least[0] as f64;
    let class = if classed { format!("{:.2} | {:.2}", each(least[2]), ratio(least[2])) } else { " | ".to_string() };
    println!(
        "| {} | {:.1} | {:.2} | {class} | {:.2} | {:.2} |",
        list.name,
        list.text.len() as f64 / COUNT as f64,
        each(least[0]),
        each(least[1]),
        ratio(least[1])
    );
}
