//! The lookups: `l` lines of ids, `f` lines of header keywords; and the texts `name` and `system`.

use crate::document::{Answer, Reader};
use crate::reader::{Told, put_hex, tell};
use crate::step::Step;
use cad_step::scan::Scan;
use std::collections::HashMap;
use std::fmt::Write;

/// The last row of each id.
pub fn last_rows(scan: &Scan) -> HashMap<u32, usize> {
    scan.records
        .iter()
        .enumerate()
        .map(|(i, r)| (r.id, i))
        .collect()
}

fn row_line(out: &mut String, head: &str, row: Option<usize>) {
    let _ = match row {
        Some(row) => writeln!(out, "{head} {row}"),
        None => writeln!(out, "{head} none"),
    };
}

/// Prints the lookups. The original's answer must be the last row of the id, or none.
pub fn print_ids(scan: &Scan, step: &Step, out: &mut String) {
    let last = last_rows(scan);
    let mut ids: Vec<u32> = scan.records.iter().map(|r| r.id).collect();
    ids.extend([0, 1]);
    ids.extend(scan.max_id.checked_add(1));
    ids.push(u32::MAX);
    for id in ids {
        let row = step.row(id);
        row_line(out, &format!("l {id}"), row);
        if row != last.get(&id).copied() {
            let _ = writeln!(out, "driver l {id} {:?} is the last", last.get(&id));
        }
    }
}

/// The first header row with a keyword, letters in either case.
fn header_row(file: &[u8], scan: &Scan, keyword: &str) -> Option<usize> {
    scan.header.iter().position(|h| {
        file[h.keyword.start as usize..h.keyword.end as usize]
            .eq_ignore_ascii_case(keyword.as_bytes())
    })
}

/// Prints the header searches. The original gives a reader, and its place tells the row: no two header records have one `(`.
pub fn print_headers(file: &[u8], scan: &Scan, step: &Step, out: &mut String) {
    for keyword in ["FILE_NAME", "file_schema", "File_Description", "NOPE"] {
        let row = step.file.header_args(keyword).map(|args| {
            let start = args.offset();
            scan.header
                .iter()
                .position(|h| h.args.start as usize == start)
                .expect("a header row")
        });
        row_line(out, &format!("f {keyword}"), row);
        if row != header_row(file, scan, keyword) {
            let _ = writeln!(
                out,
                "driver f {keyword} {:?} is the first",
                header_row(file, scan, keyword)
            );
        }
    }
}

/// The parameter number `skipped` of FILE_NAME as a text, empty where there is none; the driver's own or the original's fault as
/// an error.
fn text(file: &[u8], scan: &Scan, skipped: usize) -> Result<(Vec<u8>, bool), &'static str> {
    let Some(row) = header_row(file, scan, "FILE_NAME") else {
        return Ok((Vec::new(), false));
    };
    let (mut place, end) = (
        scan.header[row].args.start as usize,
        scan.header[row].args.end as usize,
    );
    for _ in 0..skipped {
        match tell(Reader::Skip, file, place, end) {
            Told::Said(after, Ok(_)) => place = after,
            Told::Said(_, Err(_)) => return Ok((Vec::new(), false)),
            _ => return Err("panic"),
        }
    }
    let outside = std::cell::Cell::new(false);
    match crate::reader::tell_and_note(Reader::Str, file, place, end, &outside) {
        Told::Said(_, Ok(Answer::Text(text))) => Ok((text, outside.get())),
        Told::Said(..) => Ok((Vec::new(), false)),
        _ => Err("panic"),
    }
}

/// Prints `name` and `system`. They are read by the original's readers over the given bytes; where the `StepFile` has these
/// bytes too and the original decides the text, its own functions must say the same.
pub fn print_texts(file: &[u8], scan: &Scan, step: &Step, out: &mut String) {
    for (name, skipped) in [("name", 0), ("system", 5)] {
        match text(file, scan, skipped) {
            Err(fault) => {
                let _ = writeln!(out, "{name} {fault}");
            }
            Ok((text, outside)) => {
                let _ = write!(out, "{name} ");
                put_hex(out, &text);
                out.push('\n');
                if step.whole() && !outside {
                    let whole = if skipped == 0 {
                        step.file.file_name()
                    } else {
                        step.file.originating_system()
                    };
                    if whole.as_bytes() != text {
                        let _ = writeln!(out, "driver {name} the original says {whole:?}");
                    }
                }
            }
        }
    }
}
