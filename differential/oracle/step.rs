//! The original's `StepFile` for any accepted file.
//!
//! Its id table is sized by the largest id: one record `#4294967295=A();` would cost 16 GiB. Where the ids are too large for that,
//! the file is given new ones: an id of at least 10^k becomes one below 10^k that stands nowhere in the file, written with zeros
//! in front to the same number of digits, in the records and in all references. So every place stays what it was, and a lookup
//! of the new id is the lookup of the old. Texts that hold such an id are changed too, so texts are never read from such a file.

use cad_step::scan::{Scan, scan};
use cad_step::{Entity, StepFile};
use std::collections::{BTreeSet, HashMap, HashSet};
use std::ops::Range;

pub struct Step {
    pub file: StepFile,
    /// New ids, by the old ones.
    renamed: HashMap<u32, u32>,
}

impl Step {
    pub fn of(file: &[u8], scanned: &Scan) -> Result<Step, String> {
        let most = (100_000 + 16 * file.len() as u64).min(50_000_000);
        let mut renamed = HashMap::new();
        let mut bytes = file.to_vec();
        if u64::from(scanned.max_id) > most {
            renamed = new_ids(scanned, &bytes);
            rename(&mut bytes, &renamed);
            same_rows(scanned, &bytes, &renamed)?;
        }
        let file = StepFile::from_bytes(bytes).map_err(|error| error.to_string())?;
        Ok(Step { file, renamed })
    }

    /// True where the file's bytes are the given ones.
    pub fn whole(&self) -> bool {
        self.renamed.is_empty()
    }

    /// The id that the file has for this one.
    pub fn id(&self, id: u32) -> u32 {
        self.renamed.get(&id).copied().unwrap_or(id)
    }

    /// The number of a row of the file.
    pub fn number(&self, row: &Entity) -> usize {
        let base = self.file.entities().as_ptr() as usize;
        (std::ptr::from_ref(row) as usize - base) / size_of::<Entity>()
    }

    /// The row that the original's lookup finds. The ids asked for are the records', 0, 1 and such as lie past the largest: the
    /// new ids are none of these.
    pub fn row(&self, id: u32) -> Option<usize> {
        Some(self.number(self.file.get(self.id(id))?))
    }
}

/// The digits after the next `#` from `i` on, and their value.
fn next_id(bytes: &[u8], i: usize) -> Option<(Range<usize>, Option<u32>)> {
    let start = i + bytes[i..].iter().position(|&b| b == b'#')? + 1;
    let length = bytes[start..]
        .iter()
        .take_while(|b| b.is_ascii_digit())
        .count();
    let digits = start..start + length;
    let value = bytes[digits.clone()].iter().try_fold(0u32, |n, b| {
        n.checked_mul(10)?.checked_add(u32::from(b - b'0'))
    });
    Some((digits, value))
}

fn new_ids(scanned: &Scan, bytes: &[u8]) -> HashMap<u32, u32> {
    let mut used = HashSet::from([0, 1]);
    let mut i = 0;
    while let Some((digits, value)) = next_id(bytes, i) {
        i = digits.end;
        used.extend(value);
    }
    let mut limit = 100_000u32;
    while (limit as usize) < 2 * used.len() {
        limit *= 10;
    }
    let large: BTreeSet<u32> = scanned
        .records
        .iter()
        .map(|r| r.id)
        .filter(|id| *id >= limit)
        .collect();
    let free = (0..limit).filter(|id| !used.contains(id));
    large.into_iter().zip(free).collect()
}

fn rename(bytes: &mut [u8], renamed: &HashMap<u32, u32>) {
    let mut i = 0;
    while let Some((digits, old)) = next_id(bytes, i) {
        i = digits.end;
        if let Some(new) = old.and_then(|old| renamed.get(&old)) {
            let width = digits.len();
            bytes[digits].copy_from_slice(format!("{new:0width$}").as_bytes());
        }
    }
}

/// The file with the new ids has the same rows but for the ids.
fn same_rows(old: &Scan, bytes: &[u8], renamed: &HashMap<u32, u32>) -> Result<(), String> {
    let new = scan(bytes).map_err(|error| error.to_string())?;
    let same = old.header.len() == new.header.len()
        && old.records.len() == new.records.len()
        && old
            .header
            .iter()
            .zip(&new.header)
            .all(|(a, b)| a.keyword == b.keyword && a.args == b.args)
        && old.records.iter().zip(&new.records).all(|(a, b)| {
            renamed.get(&a.id).copied().unwrap_or(a.id) == b.id
                && a.keyword == b.keyword
                && a.args == b.args
                && a.complex == b.complex
        });
    if same {
        Ok(())
    } else {
        Err("the new ids changed the rows".to_string())
    }
}
