//! The lines of the program `asks`: what the text form of `answers` does not show.
//!
//! Kinds, keywords, rows and parts by kind, `require`, `args`, the units of each record, `skip_n` and `is_empty` are the original's.
//! A record's start, where 8 is given, is the place at which the original refuses the record once its `=` is gone. 9, 16 and kept
//! rows the original has not: they are written down by document 01's words.

use crate::document::{Answer, Reader, parameter, past_trivia};
use crate::listed::{self, Listed};
use crate::parts;
use crate::reader::{READERS, Told, put_hex, put_line, tell};
use crate::refusal::{self, Refusal};
use crate::rows;
use crate::step::Step;
use crate::units;
use cad_step::scan::{RecordSpan, Scan, scan};
use cad_step::{Args, Kind};
use std::fmt::Write;

/// The ten kinds that document 01 needs, and the complex one. Every other is `Other` here.
const KINDS: [Kind; 11] = [
    Kind::GeometricRepresentationContext,
    Kind::GlobalUnitAssignedContext,
    Kind::GlobalUncertaintyAssignedContext,
    Kind::LengthUnit,
    Kind::PlaneAngleUnit,
    Kind::SolidAngleUnit,
    Kind::SiUnit,
    Kind::ConversionBasedUnit,
    Kind::UncertaintyMeasureWithUnit,
    Kind::LengthMeasureWithUnit,
    Kind::Complex,
];

fn is_other(kind: Kind) -> bool {
    !KINDS.contains(&kind)
}

/// A kind's name, `-` where it has none here.
fn name(kind: Kind) -> &'static str {
    if is_other(kind) { "-" } else { kind.as_str() }
}

pub fn print(file: &[u8], out: &mut String) {
    let mut shown = String::new();
    let Some(scan) = rows::print(file, &mut shown) else {
        out.push_str(&shown);
        return;
    };
    let step = match Step::of(file, &scan) {
        Ok(step) => step,
        Err(how) => {
            let _ = writeln!(out, "driver {how}");
            return;
        }
    };
    let _ = writeln!(
        out,
        "count {} {}",
        step.file.len(),
        u8::from(step.file.is_empty())
    );
    print_ids(&scan, &step, out);
    print_keywords(file, &scan, &step, out);
    print_kinds(&scan, &step, out);
    let way = units::way(file, &scan);
    for (i, row) in scan.records.iter().enumerate() {
        print_parts(file, row, &step, i, out);
        let _ = write!(out, "u {i} ");
        units::print_context(&way, &step, i, out);
    }
    for (i, h) in scan.header.iter().enumerate() {
        print_reads(
            file,
            'h',
            i,
            h.args.start as usize,
            h.args.end as usize,
            out,
        );
    }
    for (i, r) in scan.records.iter().enumerate() {
        print_reads(
            file,
            'r',
            i,
            r.args.start as usize,
            r.args.end as usize,
            out,
        );
    }
    // A span that ends past the file, and one that runs backwards: seven answers each.
    out.push_str("nine");
    out.push_str(&" 9/0@0".repeat(14));
    out.push('\n');
    print_kept(&scan, out);
    out.push_str(&shown);
    print_full(file, &scan, out);
}

/// `i ID KIND` and what `require` and `args` say; 14 where there is no record.
fn print_ids(scan: &Scan, step: &Step, out: &mut String) {
    let mut ids: Vec<u32> = scan.records.iter().map(|r| r.id).collect();
    ids.extend([0, 1]);
    ids.extend(scan.max_id.checked_add(1));
    ids.push(u32::MAX);
    for id in ids {
        let known = step.id(id);
        let _ = write!(out, "i {id} {}", name(step.file.kind_of(known)));
        let row = step.file.require(known).map(|row| step.number(row));
        let _ = match &row {
            Ok(row) => {
                let r = &scan.records[*row];
                write!(
                    out,
                    " {} {} {} {} {}",
                    r.keyword.start,
                    r.keyword.end,
                    r.args.start,
                    r.args.end,
                    u8::from(r.complex)
                )
            }
            Err(error) => write!(out, " {}", refusal::of(error)),
        };
        let _ = match (step.file.args(known), &row) {
            // The original's reader does not show its end.
            (Ok(args), Ok(row)) => {
                writeln!(out, " {} {}", args.offset(), scan.records[*row].args.end)
            }
            (Ok(_), Err(_)) => writeln!(out, " driver args without a record"),
            (Err(error), _) => writeln!(out, " {}", refusal::of(&error)),
        };
    }
}

/// `w I HEX`: outside the domain, where a keyword is no text, the original gives an empty one, and the file's bytes are printed.
fn print_keywords(file: &[u8], scan: &Scan, step: &Step, out: &mut String) {
    for (i, r) in scan.records.iter().enumerate() {
        let bytes = &file[r.keyword.start as usize..r.keyword.end as usize];
        let _ = write!(out, "w {i} ");
        put_hex(out, bytes);
        out.push('\n');
        let told = step.file.keyword(&step.file.entities()[i]);
        if step.whole() && told.as_bytes() != bytes {
            match std::str::from_utf8(bytes) {
                Ok(_) => {
                    let _ = writeln!(out, "driver w {i} the original says {told:?}");
                }
                Err(_) => listed::note(Listed::Keyword),
            }
        }
    }
}

/// `y` and the rows of each kind.
fn print_kinds(scan: &Scan, step: &Step, out: &mut String) {
    out.push('y');
    let mut rest: Vec<bool> = vec![true; scan.records.len()];
    for kind in KINDS {
        let rows: Vec<usize> = step.file.by_kind(kind).map(|e| step.number(e)).collect();
        for row in &rows {
            rest[*row] = false;
        }
        put_rows(out, &rows);
    }
    let others: Vec<usize> = (0..rest.len()).filter(|row| rest[*row]).collect();
    put_rows(out, &others);
    out.push('\n');
    if step.file.by_kind(Kind::Other).count() != others.len() {
        listed::note(Listed::Other);
    }
}

fn put_rows(out: &mut String, rows: &[usize]) {
    for (k, row) in rows.iter().enumerate() {
        let _ = write!(out, "{}{row}", if k == 0 { ' ' } else { ',' });
    }
    if rows.is_empty() {
        out.push_str(" -");
    }
}

/// `c I` and for each kind where the first part of that kind has its arguments. The original's reader does not show its end.
fn print_parts(file: &[u8], row: &RecordSpan, step: &Step, i: usize, out: &mut String) {
    let _ = write!(out, "c {i}");
    let (parts, fault) = parts::of(file, row);
    for kind in KINDS {
        let _ = match step.file.complex_part(&step.file.entities()[i], kind) {
            Err(error) => write!(out, " {}", refusal::of(&error)),
            Ok(None) => write!(out, " -"),
            Ok(Some(args)) => match parts.iter().find(|p| p.args.start == args.offset()) {
                Some(part) => write!(out, " {}:{}", part.args.start, part.args.end),
                None => write!(out, " driver no part at {}", args.offset()),
            },
        };
    }
    let _ = match (fault, parts.iter().find(|p| is_other(p.kind))) {
        (Some(fault), _) => writeln!(out, " {fault}"),
        (None, None) => writeln!(out, " -"),
        (None, Some(part)) => writeln!(out, " {}:{}", part.args.start, part.args.end),
    };
}

/// `n`: 0, 1, 2 and 5 parameters skipped, and whether one is left then; `short`: texts, lists and grids in rooms for one.
fn print_reads(file: &[u8], letter: char, i: usize, place: usize, end: usize, out: &mut String) {
    let _ = write!(out, "n {letter} {i}");
    for n in [0, 1, 2, 5] {
        let mut args = Args::new(file, place as u32..end as u32);
        let skipped = args.skip_n(n);
        let _ = write!(out, " @{}", args.offset());
        if let Err(error) = skipped {
            let _ = write!(out, "!{}", refusal::of(&error));
        }
        let empty = u8::from(args.is_empty());
        let _ = write!(out, ",{empty}@{}", args.offset());
    }
    let _ = writeln!(out, "\nshort {letter} {i}");
    for (name, reader) in READERS {
        if matches!(
            reader,
            Reader::Str
                | Reader::RefList
                | Reader::I64List
                | Reader::F64List
                | Reader::RefGrid
                | Reader::F64Grid
        ) {
            let told = shortened(file, place, end, tell(reader, file, place, end));
            put_line(out, name, place, told);
        }
    }
}

/// The answer, or 16 at the parameter's start where it is longer than one and has to be written to a room.
fn shortened(file: &[u8], place: usize, end: usize, told: Told) -> Told {
    let long = match &told {
        Told::Said(_, Ok(Answer::Text(text))) => text.len() > 1 && !plain(file, place, end),
        Told::Said(_, Ok(Answer::Refs(list))) => list.len() > 1,
        Told::Said(_, Ok(Answer::Ints(list))) => list.len() > 1,
        Told::Said(_, Ok(Answer::Reals(list))) => list.len() > 1,
        Told::Said(_, Ok(Answer::RefGrid(list, ends))) => list.len() > 1 || ends.len() > 1,
        Told::Said(_, Ok(Answer::RealGrid(list, ends))) => list.len() > 1 || ends.len() > 1,
        _ => false,
    };
    match told {
        Told::Said(after, _) if long => {
            let start = past_trivia(file, place, end);
            Told::Said(after, Err(Refusal::new(16, start)))
        }
        told => told,
    }
}

/// Whether no quote, backslash or high byte occurs between the first and the last byte of the string at a place.
fn plain(file: &[u8], place: usize, end: usize) -> bool {
    let Ok(found) = parameter(file, place, end) else {
        return true;
    };
    let span = found.span;
    span.len() < 2
        || !file[span.start + 1..span.end - 1]
            .iter()
            .any(|b| matches!(b, b'\'' | b'\\' | 0x80..))
}

/// `kept` and `read`, by document 01's words: six little-endian numbers of 32 bits a row.
fn print_kept(scan: &Scan, out: &mut String) {
    let n = scan.records.len();
    let _ = write!(out, "kept {n} ");
    let mut bytes = Vec::new();
    for r in &scan.records {
        let spans = [
            r.id,
            r.keyword.start,
            r.keyword.end,
            r.args.start,
            r.args.end,
            u32::from(r.complex),
        ];
        bytes.extend(spans.iter().flat_map(|n| n.to_le_bytes()));
    }
    put_hex(out, &bytes);
    if n == 0 {
        out.push_str("\nkept short -\nkept far 0\nread -\n");
        return;
    }
    out.push_str("\nkept short 16/0@0\nkept far 9/0@0\n");
    let _ = writeln!(out, "read {n}");
    out.push_str("read cut 9/0@0\nread short 16/0@0\nread far 9/0@0\n");
}

/// `full`: 8 at the start of the last record of each kind, for which there is no room.
fn print_full(file: &[u8], scan: &Scan, out: &mut String) {
    let header = scan.header.last().map(|h| h.keyword.start as usize);
    let data = scan.records.last().map(|r| start_of(file, r));
    out.push_str("full");
    for start in [header, data, data] {
        let _ = match start {
            None => write!(out, " answered"),
            Some(start) => write!(out, " {}", Refusal::new(8, start)),
        };
    }
    out.push('\n');
}

/// A data record's start, which the original does not keep: its `=` is taken away, and the original refuses the record there.
fn start_of(file: &[u8], r: &RecordSpan) -> usize {
    let value = if r.complex {
        r.args.start as usize - 1
    } else {
        r.keyword.start as usize
    };
    let mut changed = file.to_vec();
    let equals = file[..value].iter().rposition(|b| *b == b'=');
    changed[equals.expect("a record has an `=`")] = b'~';
    match scan(&changed) {
        Err(error) if refusal::of(&error).reason == 5 => refusal::of(&error).place,
        _ => panic!("a record without `=` is not refused"),
    }
}
