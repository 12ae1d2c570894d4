//! The parts of complex records, and the walks of all records.

use crate::document::white;
use crate::reader;
use crate::refusal::{self, Refusal};
use crate::step;
use cad_step::scan::{RecordSpan, Scan};
use cad_step::{Kind, StepFile, lower};
use std::fmt::Write;
use std::ops::Range;

pub struct Part {
    pub kind: Kind,
    pub keyword: Range<usize>,
    pub args: Range<usize>,
}

/// The parts up to the first faulty one, and its refusal. The original's `complex_parts` gives no part where one is faulty, and no
/// keyword's place; so the parts are found here by document 01's words, each `)` by the original's own search.
pub fn of(file: &[u8], record: &RecordSpan) -> (Vec<Part>, Option<Refusal>) {
    let mut parts = Vec::new();
    let (mut i, end) = (record.args.start as usize, record.args.end as usize);
    if !record.complex {
        return (parts, None);
    }
    loop {
        while i < end && (white(file[i]) || file[i] == b',') {
            i += 1;
        }
        if i >= end {
            return (parts, None);
        }
        let Some(at) = file[i..end].iter().position(|&b| b == b'(') else {
            return (parts, None);
        };
        let open = i + at;
        let close = match lower::matching_paren(file, open) {
            Ok(close) => close,
            // 3, 4 or 6; the places are the table's, as in the scan.
            Err(error) => return (parts, Some(refusal::of(&error))),
        };
        let kept = file[i..open]
            .iter()
            .rposition(|&b| !white(b))
            .map_or(0, |last| last + 1);
        let keyword = i..i + kept;
        parts.push(Part {
            kind: Kind::intern(&file[keyword.clone()]),
            keyword,
            args: open + 1..close,
        });
        i = close + 1;
    }
}

/// What parts this module finds and what the original's own function finds, where they part.
fn checked(step: &StepFile, row: usize, parts: &[Part], fault: Option<Refusal>) -> Option<String> {
    match (step.complex_parts(&step.entities()[row]), fault) {
        (Ok(found), None) => {
            let same = found.len() == parts.len()
                && found
                    .iter()
                    .zip(parts)
                    .all(|((kind, args), p)| *kind == p.kind && args.offset() == p.args.start);
            (!same).then(|| "the original has other parts".to_string())
        }
        (Err(error), Some(fault)) if refusal::of(&error) == fault => None,
        (Ok(_), Some(fault)) => Some(format!("the original has parts, and not {fault}")),
        (Err(error), _) => Some(format!("the original says {}", refusal::of(&error))),
    }
}

/// Prints the walks of the header records and of the data records.
pub fn print(file: &[u8], scan: &Scan, step: &step::Step, wanted: &[bool; 15], out: &mut String) {
    for (i, h) in scan.header.iter().enumerate() {
        let _ = writeln!(out, "walk h {i}");
        reader::walk(
            file,
            h.args.start as usize,
            h.args.end as usize,
            wanted,
            out,
        );
    }
    for (i, r) in scan.records.iter().enumerate() {
        if !r.complex {
            let _ = writeln!(out, "walk r {i}");
            reader::walk(
                file,
                r.args.start as usize,
                r.args.end as usize,
                wanted,
                out,
            );
            continue;
        }
        let (parts, fault) = of(file, r);
        for (k, p) in parts.iter().enumerate() {
            let _ = writeln!(
                out,
                "part {i} {k} {} {} {} {}",
                p.keyword.start, p.keyword.end, p.args.start, p.args.end
            );
            reader::walk(file, p.args.start, p.args.end, wanted, out);
        }
        if let Some(fault) = fault {
            let _ = writeln!(out, "part {i} {fault}");
        }
        if let Some(how) = checked(&step.file, i, &parts, fault) {
            let _ = writeln!(out, "driver part {i} {how}");
        }
    }
}
