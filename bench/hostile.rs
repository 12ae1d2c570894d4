//! Opens one large or hostile file with one side, in a process of its own, and tells the answer, the time and the memory.
//!
//!     hostile names
//!     hostile NAME rust|proved

#[path = "src/table.rs"]
#[allow(dead_code)]
mod table;

use cad_step::StepFile;

unsafe extern "C" {
    fn hooflift_scan(
        file: *const u8,
        file_len: usize,
        headers: *mut u32,
        headers_len: usize,
        rows: *mut u32,
        rows_len: usize,
        slots: usize,
        out: *mut u64,
        out_len: usize,
    ) -> u8;
    fn hooflift_index(
        rows: *const u32,
        rows_len: usize,
        count: usize,
        slots: *mut u64,
        slots_len: usize,
        ids: *mut u64,
        ids_len: usize,
    ) -> u8;
    fn clock_gettime(clock: i32, time: *mut [i64; 2]) -> i32;
}

const OPENING: &[u8] = b"ISO-10303-21;\nHEADER;\nFILE_NAME('a');\nENDSEC;\nDATA;\n";
const CLOSING: &[u8] = b"ENDSEC;\nEND-ISO-10303-21;\n";

/// The files, by name, and what each is.
const NAMES: [(&str, &str); 17] = [
    ("gigabyte", "1 GB of records as exporters write them"),
    ("march", "the file of 9 March: a hundred records and one numbered 4294967295"),
    ("one-id", "a million records of one id"),
    ("descending", "a million records, ids descending"),
    ("comments", "a million comments, none closed"),
    ("string", "one record of 100 MB, a string"),
    ("quotes", "one record of 100 MB, a string of quotes, all doubled"),
    ("open-quotes", "the same without the quote that ends the string"),
    ("list", "one record of 100 MB, a list of numbers"),
    ("zeros", "100 MB of the byte 00"),
    ("marked-zeros", "the marker, then 100 MB of the byte 00"),
    ("parentheses", "100 MB of `(`"),
    ("open-parentheses", "a record of 100 MB of `(`"),
    ("chain-12500", "`#1=A(;` 12,500 times, then as many `)`"),
    ("chain-25000", "`#1=A(;` 25,000 times, then as many `)`"),
    ("chain-50000", "`#1=A(;` 50,000 times, then as many `)`"),
    ("chain-100000", "`#1=A(;` 100,000 times, then as many `)`"),
];

fn in_data(body: impl FnOnce(&mut Vec<u8>)) -> Vec<u8> {
    let mut file = OPENING.to_vec();
    body(&mut file);
    file.extend(CLOSING);
    file
}

fn records(ids: impl Iterator<Item = u64>) -> Vec<u8> {
    in_data(|file| ids.for_each(|id| file.extend(format!("#{id}=A(1);\n").bytes())))
}

/// Points, directions, lines and faces in turn, up to so many bytes.
fn usual(bytes: usize) -> Vec<u8> {
    in_data(|file| {
        file.reserve(bytes + 1000);
        let mut id = 1u64;
        while file.len() < bytes {
            let text = format!(
                "#{}=CARTESIAN_POINT('NONE',(-12.{},{}.5,0.));\n#{}=DIRECTION('',(0.,0.,1.));\n#{}=VECTOR('NONE',#{},1000.);\n#{}=LINE('NONE',#{},#{});\n#{}=ADVANCED_FACE('NONE',(#{},#{}),#{},.T.);\n",
                id, id % 997, id % 61, id + 1, id + 2, id + 1, id + 3, id, id + 2, id + 4, id, id + 1, id + 3
            );
            file.extend(text.bytes());
            id += 5;
        }
    })
}

fn chain(n: usize) -> Vec<u8> {
    in_data(|file| {
        file.extend(b"#1=A(;".repeat(n));
        file.extend(b")".repeat(n));
        file.extend(b";\n");
    })
}

fn made(name: &str) -> Vec<u8> {
    let hundred = 100_000_000;
    match name {
        "gigabyte" => usual(1_000_000_000),
        "march" => records((1..=100).chain(std::iter::once(4_294_967_295))),
        "one-id" => records(std::iter::repeat_n(7, 1_000_000)),
        "descending" => records((1..=1_000_000).rev()),
        "comments" => in_data(|file| file.extend(b"/*\n".repeat(1_000_000))),
        "string" => in_data(|file| {
            file.extend(b"#1=A('");
            file.extend(vec![b'x'; hundred]);
            file.extend(b"');\n");
        }),
        "quotes" => in_data(|file| {
            file.extend(b"#1=A('");
            file.extend(vec![b'\''; hundred]);
            file.extend(b"');\n");
        }),
        "open-quotes" => in_data(|file| {
            file.extend(b"#1=A('");
            file.extend(vec![b'\''; hundred]);
            file.extend(b");\n");
        }),
        "list" => in_data(|file| {
            file.extend(b"#1=A((");
            file.extend(b"1.5,".repeat(hundred / 4));
            file.extend(b"2.));\n");
        }),
        "zeros" => vec![0; hundred],
        "marked-zeros" => [b"ISO-10303-21;".to_vec(), vec![0; hundred]].concat(),
        "parentheses" => vec![b'('; hundred],
        "open-parentheses" => in_data(|file| {
            file.extend(b"#1=A");
            file.extend(vec![b'('; hundred]);
            file.extend(b";\n");
        }),
        _ => chain(name.rsplit('-').next().and_then(|n| n.parse().ok()).expect("a name")),
    }
}

fn seconds() -> f64 {
    let mut t = [0i64; 2];
    // SAFETY: t is a place for one time. Clock 2 is this process's processor time.
    assert_eq!(unsafe { clock_gettime(2, &mut t) }, 0);
    t[0] as f64 + t[1] as f64 / 1e9
}

/// The most memory that this process has held, in bytes.
fn most() -> u64 {
    let status = std::fs::read_to_string("/proc/self/status").expect("status");
    let line = status.lines().find(|l| l.starts_with("VmHWM")).expect("VmHWM");
    line.split_whitespace().nth(1).and_then(|n| n.parse::<u64>().ok()).expect("a number") * 1024
}

/// Opens the file: the scan and the table by id.
fn rust(file: Vec<u8>) -> String {
    match StepFile::from_bytes(file) {
        Ok(f) => format!("{} records", f.len()),
        Err(e) => format!("refused: {e}").chars().take(80).collect(),
    }
}

/// A row at every `;` is more than any file needs.
fn most_rows(file: &[u8]) -> usize {
    file.iter().filter(|&&b| b == b';').count() + 1
}

/// The same, in rooms for so many rows.
fn proved(file: &[u8], rows: usize) -> String {
    let mut headers = vec![0u32; 4096];
    let mut table = vec![0u32; rows * table::ROW];
    let mut slots = vec![0u64; rows];
    let mut out = [0u64; 3];
    let mut ids = [0u64; 8];
    // SAFETY: each pointer goes with the length of its slice, and no two of the slices overlap.
    let code = unsafe {
        hooflift_scan(
            file.as_ptr(), file.len(), headers.as_mut_ptr(), headers.len(), table.as_mut_ptr(), table.len(), rows,
            out.as_mut_ptr(), out.len(),
        )
    };
    if code != 0 {
        return format!("refused {code}/{}@{}", out[0], out[1]);
    }
    // SAFETY: as above.
    unsafe {
        hooflift_index(
            table.as_ptr(), table.len(), out[1] as usize, slots.as_mut_ptr(), slots.len(), ids.as_mut_ptr(), ids.len(),
        )
    };
    format!("{} records", out[1])
}

fn main() {
    let words: Vec<String> = std::env::args().collect();
    if words.len() < 3 {
        NAMES.iter().for_each(|(name, what)| println!("{name}\t{what}"));
        return;
    }
    let file = made(&words[1]);
    let bytes = file.len() as u64;
    let rows = most_rows(&file);
    let (before, begin) = (most(), seconds());
    let answer = if words[2] == "rust" { rust(file) } else { proved(&file, rows) };
    let took = seconds() - begin;
    let more = most().saturating_sub(before);
    println!("{bytes}\t{answer}\t{took:.3}\t{:.1}", more as f64 / 1e6);
}
