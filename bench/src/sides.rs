//! The two sides, and whether they answer the same.

use crate::table::{self, HEADER_ROW, ROW};
use cad_step::StepError;
use cad_step::scan::{Scan, scan};

unsafe extern "C" {
    fn hooflift_scan(
        file: *const u8,
        file_len: usize,
        headers: *mut u32,
        headers_len: usize,
        rows: *mut u32,
        rows_len: usize,
        slots: usize,
        out: *mut u64,
        out_len: usize,
    ) -> u8;
}

/// What is lent to the proved scan, touched before it is used.
pub struct Rooms {
    headers: Vec<u32>,
    rows: Vec<u32>,
    out: [u64; 3],
}

impl Rooms {
    /// Rooms for as many rows as the file has; for a refused file, one row for each 48 bytes, as the original reserves.
    pub fn for_file(file: &[u8]) -> Rooms {
        match scan(file) {
            Ok(s) => Rooms::of(s.header.len(), s.records.len()),
            Err(_) => Rooms::of(64, file.len() / 48 + 1),
        }
    }

    /// Rooms for any file of this length: no record is shorter than six bytes, as `#1=A()` and its `;`.
    pub fn for_length(bytes: usize) -> Rooms {
        Rooms::of(bytes / 3 + 1, bytes / 6 + 1)
    }

    fn of(headers: usize, records: usize) -> Rooms {
        // Not zero, so that every page is written now.
        Rooms {
            headers: vec![7; headers * HEADER_ROW],
            rows: vec![7; records * ROW],
            out: [7; 3],
        }
    }

    fn slots(&self) -> usize {
        self.rows.len() / ROW
    }
}

#[inline(never)]
pub fn original(file: &[u8]) -> Result<Scan, StepError> {
    scan(file)
}

#[inline(never)]
pub fn proved(file: &[u8], rooms: &mut Rooms) -> u8 {
    let slots = rooms.slots();
    // SAFETY: each pointer goes with the length of its slice, and no two of the slices overlap.
    unsafe {
        hooflift_scan(
            file.as_ptr(),
            file.len(),
            rooms.headers.as_mut_ptr(),
            rooms.headers.len(),
            rooms.rows.as_mut_ptr(),
            rooms.rows.len(),
            slots,
            rooms.out.as_mut_ptr(),
            rooms.out.len(),
        )
    }
}

/// The refusal's number, reason and place for an error of the original's scan.
fn refusal(error: &StepError) -> (u8, u64, u64) {
    match error {
        StepError::NotPart21 => (1, 0, 0),
        StepError::Unterminated { what, offset } => {
            let number = match *what {
                "comment" => 3,
                "string literal" => 4,
                "record" => 5,
                "parenthesis" => 6,
                other => panic!("unknown unterminated thing: {other}"),
            };
            (number, 0, *offset as u64)
        }
        StepError::Record { offset, detail } => {
            let reasons = [
                "header record has",
                "data record does",
                "entity id overflows",
                "entity id has",
                "expected `=`",
                "record has no value",
                "simple record has",
            ];
            let reason = reasons
                .iter()
                .position(|words| detail.starts_with(words))
                .expect("a known detail");
            (7, reason as u64 + 1, *offset as u64)
        }
        other => panic!("not an error of the scan: {other}"),
    }
}

/// What both answer, in words; or where they differ.
pub fn agree(file: &[u8], rooms: &mut Rooms) -> Result<String, String> {
    let number = proved(file, rooms);
    match original(file) {
        Err(error) => {
            let wanted = refusal(&error);
            let given = (number, rooms.out[0], rooms.out[1]);
            if given != wanted {
                return Err(format!("{given:?} for {wanted:?}"));
            }
            Ok(format!("refused {} at {}", wanted.0, wanted.2))
        }
        Ok(s) => {
            let wanted = (
                0,
                [
                    s.header.len() as u64,
                    s.records.len() as u64,
                    u64::from(s.max_id),
                ],
            );
            if (number, rooms.out) != wanted {
                return Err(format!("{number} {:?} for {wanted:?}", rooms.out));
            }
            for (k, h) in s.header.iter().enumerate() {
                let row = [h.keyword.start, h.keyword.end, h.args.start, h.args.end];
                if rooms.headers[k * 4..k * 4 + 4] != row {
                    return Err(format!(
                        "header row {k}: {:?} for {row:?}",
                        &rooms.headers[k * 4..k * 4 + 4]
                    ));
                }
            }
            for (k, r) in s.records.iter().enumerate() {
                let row = [
                    r.id,
                    r.keyword.start,
                    r.keyword.end,
                    r.args.start,
                    r.args.end,
                    u32::from(r.complex),
                ];
                if table::row(&rooms.rows, k) != row {
                    return Err(format!(
                        "row {k}: {:?} for {row:?}",
                        table::row(&rooms.rows, k)
                    ));
                }
            }
            Ok(format!("{} rows", s.records.len()))
        }
    }
}
