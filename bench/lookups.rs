//! The proved id index beside the Rust original's dense table, in one executable; see lookups.sh.
//!
//!   lookups FILE..          the tables: real files, and 1,000,000 generated records with ids of several kinds
//!   lookups march SIDE      the file of 9 March opened by one side, `rust` or `proved`
//!   lookups once SIDE FILE  all references of a file looked up by one side, `rust`, `proved` or `none`, for a count of instructions
#[path = "src/clock.rs"]
#[allow(dead_code)]
mod clock;
#[path = "lookups/ids.rs"]
mod ids;
#[path = "lookups/sides.rs"]
mod sides;
#[path = "src/table.rs"]
#[allow(dead_code)]
mod table;

use cad_step::StepFile;
use clock::{keep_memory, least};
use ids::{Draw, Kind, absent, present};
use sides::{Lines, Table, dense, rust_chain, rust_gets, spelt};
use std::collections::HashMap;

const ROUNDS: usize = 7;
const ASKED: usize = 200_000;
/// Larger tables of the original are not built: their bytes are computed.
const LARGEST: u64 = 3_000_000_000;

/// A file's bytes, opened by the proved side, and by the original where its table is not too large.
struct Case {
    name: String,
    file: Vec<u8>,
    table: Table,
    rust: Option<StepFile>,
    records: usize,
    rust_bytes: u64,
}

fn case(name: &str, file: Vec<u8>) -> Option<Case> {
    let found = cad_step::scan::scan(&file).ok()?;
    let rust_bytes = (u64::from(found.max_id) + 1) * 4;
    let table = Table::open(&file, found.header.len(), found.records.len());
    let rust = (rust_bytes < LARGEST).then(|| StepFile::from_bytes(file.clone()).expect("accepted"));
    let c = Case { name: name.to_string(), file, table, rust, records: found.records.len(), rust_bytes };
    for (r, record) in found.records.iter().enumerate() {
        assert_eq!(c.table.id(r), record.id, "row {r} of {name}");
    }
    Some(c)
}

/// Every answer compared: with a map written to in file order, with the original's, and with the search that counts lines.
fn agree(c: &Case, asked: &[u32]) -> Lines {
    let map: HashMap<u32, usize> = (0..c.records).map(|r| (c.table.id(r), r)).collect();
    let mut lines = Lines::default();
    for &id in asked {
        let row = c.table.get(id);
        assert_eq!(row, map.get(&id).copied(), "#{id} of {}", c.name);
        assert_eq!(row, c.table.get_many(&[id])[0], "one of many, #{id} of {}", c.name);
        assert_eq!(row, c.table.counted(id, &mut lines), "the counting search, #{id} of {}", c.name);
        if let Some(file) = &c.rust {
            let entity = file.get(id).map(|e| std::ptr::from_ref(e));
            assert_eq!(entity, row.map(|r| std::ptr::from_ref(&file.entities()[r])), "the original, #{id} of {}", c.name);
        }
    }
    lines
}

/// Nanoseconds a lookup, the least of each: the original's, the proved one by a call for each id, and by one call for many.
fn lookups(c: &Case, asked: &[u32]) -> (Option<f64>, f64, f64) {
    let (mut a, mut b, mut m) = (u64::MAX, u64::MAX, u64::MAX);
    for _ in 0..ROUNDS {
        if let Some(file) = &c.rust {
            least(&mut a, || rust_gets(file, asked));
        }
        least(&mut b, || c.table.gets(asked));
        least(&mut m, || c.table.gets_many(asked));
    }
    let each = |t: u64| t as f64 / asked.len() as f64;
    (c.rust.is_some().then_some(each(a)), each(b), each(m))
}

/// The same where a lookup waits for the one before, each side's least: the id that was found is hidden in the next one by the mask, which is 0.
fn waiting(c: &Case, asked: &[u32]) -> (Option<f64>, f64) {
    let (mut a, mut b) = (u64::MAX, u64::MAX);
    let mask = std::hint::black_box(0);
    for _ in 0..ROUNDS {
        if let Some(file) = &c.rust {
            least(&mut a, || rust_chain(file, asked, mask));
        }
        least(&mut b, || c.table.chain(asked, mask));
    }
    let each = |t: u64| t as f64 / asked.len() as f64;
    (c.rust.is_some().then_some(each(a)), each(b))
}

/// Nanoseconds to build the table that finds ids, the records being scanned: each side's least.
fn builds(c: &mut Case) -> (Option<u64>, u64) {
    let found = cad_step::scan::scan(&c.file).expect("accepted");
    let (mut a, mut b) = (u64::MAX, u64::MAX);
    for _ in 0..ROUNDS {
        if c.rust.is_some() {
            least(&mut a, || dense(&found));
        }
        least(&mut b, || c.table.index());
    }
    (c.rust.is_some().then_some(a), b)
}

/// Nanoseconds to open the file, scan and table: each side's least.
fn opens(c: &mut Case) -> (u64, u64) {
    let (mut a, mut b) = (u64::MAX, u64::MAX);
    for _ in 0..ROUNDS {
        let copy = c.file.clone();
        least(&mut a, || StepFile::from_bytes(copy));
        let file = &c.file;
        let table = &mut c.table;
        least(&mut b, || {
            table.scan(file);
            table.index();
        });
    }
    (a, b)
}

fn told(x: Option<f64>) -> String {
    x.map_or("-".to_string(), |v| format!("{v:.1}"))
}

/// Three columns: each side's time, and the ratio.
fn columns(x: (Option<f64>, f64)) -> String {
    let ratio = x.0.map_or("-".to_string(), |v| format!("{:.2}", x.1 / v));
    format!("{} | {:.1} | {ratio}", told(x.0), x.1)
}

/// Five columns: each side's time and the ratio, and the time of one call for many with its ratio.
fn more_columns(x: (Option<f64>, f64, f64)) -> String {
    let ratio = x.0.map_or("-".to_string(), |v| format!("{:.2}", x.2 / v));
    format!("{} | {:.1} | {ratio}", columns((x.0, x.1)), x.2)
}

fn counts(c: &Case, first: &Lines, second: &Lines) -> String {
    let bytes = (spelt(c.rust_bytes), spelt(c.table.bytes()));
    format!("| {} | {} | {} | {} | {} | {} | {} |\n", c.name, c.table.order(), first.looks(), first.told(), second.told(), bytes.0, bytes.1)
}

fn generated() {
    let (mut times, mut touched) = (String::new(), String::new());
    for kind in Kind::all() {
        eprintln!("lookups: {}", kind.name());
        let ids = kind.ids();
        let mut c = case(kind.name(), ids::file(&ids)).expect("accepted");
        let mut draw = Draw::new();
        let (there, not) = (present(&ids, ASKED, &mut draw), absent(&ids, ASKED, &mut draw));
        touched += &counts(&c, &agree(&c, &there), &agree(&c, &not));
        let (free, chained, missed) = (lookups(&c, &there), waiting(&c, &there), lookups(&c, &not));
        let built = builds(&mut c);
        let ms = |t: u64| t as f64 / 1e6;
        times += &format!("| {} | {} | {:.1} |", c.name, told(built.0.map(ms)), ms(built.1));
        times += &format!(" {} | {} | {} |\n", more_columns(free), columns(chained), more_columns(missed));
    }
    println!(
        "| 1,000,000 records with ids | Rust build ms | proved | Rust ns a lookup | proved | ratio | many | ratio | waiting: Rust | proved | ratio | absent: Rust | proved | ratio | many | ratio |"
    );
    println!("|---|---|---|---|---|---|---|---|---|---|---|---|---|---|---|---|\n{times}");
    println!("| ids | found by the build | looks | lines a lookup | lines, absent | Rust bytes | proved bytes |");
    println!("|---|---|---|---|---|---|---|\n{touched}");
}

fn real(names: &[String]) {
    let (mut times, mut touched) = (String::new(), String::new());
    for name in names {
        let file = std::fs::read(name).expect("the file cannot be read");
        if file.len() < 100_000 {
            continue;
        }
        let Some(mut c) = case(name.rsplit('/').next().unwrap_or(name), file) else { continue };
        let ids: Vec<u32> = (0..c.records).map(|r| c.table.id(r)).collect();
        let drawn = present(&ids, ASKED, &mut Draw::new());
        let met = ids::references(&c.file);
        touched += &counts(&c, &agree(&c, &drawn), &agree(&c, &met));
        let (free, chained) = (lookups(&c, &met), waiting(&c, &met));
        let (built, opened) = (builds(&mut c), opens(&mut c));
        let us = |t: u64| t as f64 / 1e3;
        times += &format!("| {} | {} | {} | {:.1} |", c.name, c.records, told(built.0.map(us)), us(built.1));
        times += &format!(" {} | {} | {} |\n", columns((Some(us(opened.0)), us(opened.1))), more_columns(free), columns(chained));
    }
    println!(
        "| file | records | Rust build µs | proved | Rust open µs | proved | ratio | references: Rust ns | proved | ratio | many | ratio | waiting: Rust | proved | ratio |"
    );
    println!("|---|---|---|---|---|---|---|---|---|---|---|---|---|---|---|\n{times}");
    println!("| file | found by the build | looks | lines a lookup, drawn | lines, references | Rust bytes | proved bytes |");
    println!("|---|---|---|---|---|---|---|\n{touched}");
}

/// The file of 9 March: a hundred records, and one that is numbered 4294967295.
fn march(side: &str) {
    let ids: Vec<u32> = (1..=100).chain([u32::MAX]).collect();
    let file = ids::file(&ids);
    if side == "rust" {
        let opened = StepFile::from_bytes(file).expect("accepted");
        println!("opened, {} records", opened.len());
        return;
    }
    let found = cad_step::scan::scan(&file).expect("accepted");
    let mut table = Table::open(&file, found.header.len(), found.records.len());
    let mut lines = Lines::default();
    for &id in &ids {
        assert_eq!(table.counted(id, &mut lines), table.get(id));
    }
    let mut time = u64::MAX;
    for _ in 0..1000 {
        least(&mut time, || {
            table.scan(&file);
            table.index();
        });
    }
    println!(
        "opened in {:.1} µs, {} records, #4294967295 is row {}, {} bytes of rows and {} of slots and numbers, lines a lookup {}",
        time as f64 / 1e3, ids.len(), table.get(u32::MAX).expect("found"), ids.len() * 24, table.bytes(), lines.told()
    );
}

fn once(side: &str, name: &str) {
    let file = std::fs::read(name).expect("the file cannot be read");
    let c = case(name, file).expect("accepted");
    let met = ids::references(&c.file);
    let sum = match side {
        "rust" => rust_gets(c.rust.as_ref().expect("a small table"), &met),
        "proved" => c.table.gets(&met),
        _ => 0,
    };
    println!("{} {sum}", met.len());
}

fn main() {
    let words: Vec<String> = std::env::args().skip(1).collect();
    if words.first().is_some_and(|w| w == "march") {
        march(&words[1]);
        return;
    }
    if words.first().is_some_and(|w| w == "once") {
        once(&words[1], &words[2]);
        return;
    }
    // A record takes as many bytes on both sides, so that only what finds it is compared.
    assert_eq!(size_of::<cad_step::Entity>(), 24);
    keep_memory();
    generated();
    real(&words);
}
