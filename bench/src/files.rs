//! The files that are timed.

pub struct Case {
    pub name: String,
    pub bytes: Vec<u8>,
}

const OPENING: &str = "ISO-10303-21;\nHEADER;\nFILE_NAME('a');\nENDSEC;\nDATA;\n";
const CLOSING: &[u8] = b"ENDSEC;\nEND-ISO-10303-21;\n";
const MEGABYTE: usize = 1_000_000;

impl Case {
    pub fn read(path: &str) -> Case {
        let name = path.rsplit('/').next().unwrap_or(path).to_string();
        let bytes = std::fs::read(path).unwrap_or_else(|why| panic!("{name}: {why}"));
        Case { name, bytes }
    }
}

/// A floor: every byte is read once, eight at a time or more, as the compiler sees fit.
#[inline(never)]
pub fn sum(file: &[u8]) -> u64 {
    file.iter().map(|&b| u64::from(b)).sum()
}

fn find(file: &[u8], words: &[u8]) -> usize {
    file.windows(words.len())
        .position(|w| w == words)
        .expect("a section word")
}

/// One data section with the records of a file, again and again, each time with higher ids.
pub fn grown(seed: &[u8], megabytes: usize) -> Case {
    let begin = find(seed, b"DATA;") + 5;
    let end = begin + find(&seed[begin..], b"ENDSEC;");
    let records = &seed[begin..end];
    let step = largest_id(records) + 1;
    let mut bytes = seed[..begin].to_vec();
    let mut first = 0;
    'filled: loop {
        let mut i = 0;
        while i < records.len() {
            let stop = i
                + 1
                + records[i + 1..]
                    .iter()
                    .position(|&b| b == b'#')
                    .unwrap_or(records.len() - i - 1);
            // A new record begins at the start of a line.
            if bytes.len() >= megabytes * MEGABYTE && records[i] == b'#' && bytes.ends_with(b"\n") {
                break 'filled;
            }
            match number_at(records, i) {
                Some((id, after)) => {
                    bytes.extend(format!("#{}", id + first).bytes());
                    bytes.extend(&records[after..stop]);
                }
                None => bytes.extend(&records[i..stop]),
            }
            i = stop;
        }
        first += step;
    }
    bytes.extend(CLOSING);
    Case {
        name: format!("records of the largest, {megabytes} MB"),
        bytes,
    }
}

/// The number after a `#`, and the place after it.
fn number_at(records: &[u8], i: usize) -> Option<(u64, usize)> {
    let digits = records[i + 1..]
        .iter()
        .take_while(|b| b.is_ascii_digit())
        .count();
    if records[i] != b'#' || digits == 0 {
        return None;
    }
    let text = std::str::from_utf8(&records[i + 1..i + 1 + digits]).ok()?;
    Some((text.parse().ok()?, i + 1 + digits))
}

fn largest_id(records: &[u8]) -> u64 {
    (0..records.len())
        .filter_map(|i| number_at(records, i))
        .map(|(id, _)| id)
        .max()
        .unwrap_or(0)
}

fn around(name: String, inside: &[u8]) -> Case {
    let mut bytes = OPENING.as_bytes().to_vec();
    bytes.extend(inside);
    bytes.extend(CLOSING);
    Case { name, bytes }
}

/// So many short records, of the same length each.
pub fn numbered(records: usize) -> Case {
    let mut inside = Vec::with_capacity(records * 26);
    for id in 1..=records {
        inside.extend(format!("#{id:09}=A('',#{id:09});\n").bytes());
    }
    around(format!("{records} records"), &inside)
}

/// Files that try to make the time grow faster than the length, each at two or three lengths.
pub fn hostile() -> Vec<Case> {
    let mut all = Vec::new();
    for n in [50_000, 100_000, 200_000] {
        let record = b"#1=A('a'';''b;'''';(''c/*;''',(';'),'''');\n";
        all.push(around(
            format!("{n} records, strings of quotes and `;`"),
            &record.repeat(n),
        ));
    }
    for megabytes in [4, 16] {
        let mut comment = b"/*".to_vec();
        comment.resize(megabytes * MEGABYTE, b'x');
        all.push(around(
            format!("comment never closed, {megabytes} MB"),
            &comment,
        ));
        all.push(around(
            format!("comment of stars never closed, {megabytes} MB"),
            &[b"/*" as &[u8], &vec![b'*'; megabytes * MEGABYTE]].concat(),
        ));
        let mut text = b"#1=A('".to_vec();
        text.resize(megabytes * MEGABYTE, b'x');
        all.push(around(
            format!("one string, {megabytes} MB"),
            &[&text as &[u8], b"');\n"].concat(),
        ));
        all.push(around(
            format!("string never closed, {megabytes} MB"),
            &text,
        ));
    }
    for n in [100_000, 400_000] {
        all.push(around(
            format!("{n} records `#1=A((1);`, never closed"),
            &b"#1=A((1);\n".repeat(n),
        ));
    }
    // Here document 01 itself asks for a search past each record's `;` to the file's end: both are quadratic.
    for n in [500, 1_000, 2_000] {
        let inside = [
            b"#1=A(;\n".repeat(n),
            b"#1=A()".to_vec(),
            b")".repeat(n),
            b";\n".to_vec(),
        ]
        .concat();
        all.push(around(
            format!("{n} records `#1=A(;`, closed at the end"),
            &inside,
        ));
    }
    all
}
