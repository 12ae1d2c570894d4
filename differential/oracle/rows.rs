//! The part up to the rows: `refused`, or `scan`, `h` and `r` lines.

use crate::refusal;
use cad_step::scan::{Scan, scan};
use std::fmt::Write;

/// Prints the part, and hands on the scan where the file is accepted.
pub fn print(file: &[u8], out: &mut String) -> Option<Scan> {
    // The original has no such bound; its spans are 32 bits wide.
    if file.len() > 4_294_967_295 {
        out.push_str("refused 2/0@0\n");
        return None;
    }
    // Not StepFile::from_bytes, whose id table is sized by the largest id.
    let scanned = match scan(file) {
        Ok(scanned) => scanned,
        Err(error) => {
            let _ = writeln!(out, "refused {}", refusal::of(&error));
            return None;
        }
    };
    let _ = writeln!(
        out,
        "scan {} {} {}",
        scanned.header.len(),
        scanned.records.len(),
        scanned.max_id
    );
    for (i, h) in scanned.header.iter().enumerate() {
        let _ = writeln!(
            out,
            "h {i} {} {} {} {}",
            h.keyword.start, h.keyword.end, h.args.start, h.args.end
        );
    }
    for (i, r) in scanned.records.iter().enumerate() {
        let _ = writeln!(
            out,
            "r {i} {} {} {} {} {} {}",
            r.id,
            r.keyword.start,
            r.keyword.end,
            r.args.start,
            r.args.end,
            u8::from(r.complex)
        );
    }
    Some(scanned)
}
