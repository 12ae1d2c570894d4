//! The two sides of a lookup: the original's dense table, and the proved index, whose search is written again here to count the
//! lines of memory that it touches.
use crate::table::{self, HEADER_ROW, ROW};
use cad_step::StepFile;
use cad_step::scan::Scan;
use std::cmp::Ordering;
use std::marker::PhantomData;

unsafe extern "C" {
    fn hooflift_scan(
        file: *const u8,
        file_len: usize,
        headers: *mut u32,
        headers_len: usize,
        rows: *mut u32,
        rows_len: usize,
        slots: usize,
        out: *mut u64,
        out_len: usize,
    ) -> u8;
    fn hooflift_index(
        rows: *const u32,
        rows_len: usize,
        count: usize,
        slots: *mut u64,
        slots_len: usize,
        ids: *mut u64,
        ids_len: usize,
    ) -> u8;
    fn hooflift_get(
        rows: *const u32,
        rows_len: usize,
        slots: *const u64,
        slots_len: usize,
        ids: *const u64,
        ids_len: usize,
        id: u32,
    ) -> u32;
    fn hooflift_get_all(
        rows: *const u32,
        rows_len: usize,
        slots: *const u64,
        slots_len: usize,
        beside: *const u64,
        beside_len: usize,
        ids: *const u32,
        ids_len: usize,
        found: *mut u32,
        found_len: usize,
    ) -> u8;
}

/// How many ids are asked for in one call.
const MANY: usize = 256;

const NONE: u32 = u32::MAX;
/// Where the id begins in a slot: above the row.
const ROWS: u64 = 1 << 30;
/// Guided probes of a search through all slots, and of one that follows the guide's first look.
const GUIDED: usize = 6;
const AFTER: usize = 3;

/// The table as the original's `from_bytes` makes it, without the rest.
pub fn dense(found: &Scan) -> Vec<u32> {
    let mut by_id = vec![NONE; found.max_id as usize + 1];
    for (row, record) in found.records.iter().enumerate() {
        by_id[record.id as usize] = row as u32;
    }
    by_id
}

/// The ids of the records that are found, summed: the record is read.
pub fn rust_gets(file: &StepFile, asked: &[u32]) -> u64 {
    asked.iter().map(|&id| file.get(id).map_or(0, |e| u64::from(e.id) + 1)).sum()
}

/// The same, each lookup waiting for the record that the one before found. The mask is 0, which the compiler does not know.
pub fn rust_chain(file: &StepFile, asked: &[u32], mask: u32) -> u64 {
    let mut found = 0;
    let mut sum = 0;
    for &id in asked {
        found = file.get(id ^ (found & mask)).map_or(0, |e| e.id);
        sum += u64::from(found);
    }
    sum
}

/// A line of memory.
#[repr(align(64))]
#[derive(Clone)]
struct Line(#[allow(dead_code)] [u64; 8]);

/// Numbers that begin a line.
struct Room<T> {
    lines: Vec<Line>,
    len: usize,
    numbers: PhantomData<T>,
}

impl<T: From<u32> + Copy> Room<T> {
    fn new(len: usize) -> Room<T> {
        Room { lines: vec![Line([7; 8]); (len * size_of::<T>()).div_ceil(64)], len, numbers: PhantomData }
    }

    fn numbers(&self) -> &[T] {
        // SAFETY: the lines hold at least so many numbers, one after the other.
        unsafe { std::slice::from_raw_parts(self.place(), self.len) }
    }

    fn place(&self) -> *const T {
        self.lines.as_ptr().cast()
    }

    fn place_mut(&mut self) -> *mut T {
        self.lines.as_mut_ptr().cast()
    }
}

/// What is lent to the proved side, and what it left there.
pub struct Table {
    headers: Room<u32>,
    rows: Room<u32>,
    slots: Room<u64>,
    beside: [u64; 8],
}

impl Table {
    pub fn open(file: &[u8], headers: usize, records: usize) -> Table {
        let mut table = Table {
            headers: Room::new(headers * HEADER_ROW),
            rows: Room::new(records * ROW),
            slots: Room::new(records),
            beside: [0; 8],
        };
        table.scan(file);
        table.index();
        table
    }

    pub fn scan(&mut self, file: &[u8]) {
        let mut out = [0u64; 3];
        // SAFETY: each pointer goes with its room's length, and no two rooms overlap.
        let code = unsafe {
            hooflift_scan(
                file.as_ptr(),
                file.len(),
                self.headers.place_mut(),
                self.headers.len,
                self.rows.place_mut(),
                self.rows.len,
                self.slots.len,
                out.as_mut_ptr(),
                3,
            )
        };
        assert_eq!((code, out[1]), (0, self.slots.len as u64));
    }

    pub fn index(&mut self) {
        // SAFETY: as above.
        let code = unsafe {
            hooflift_index(
                self.rows.place(),
                self.rows.len,
                self.slots.len,
                self.slots.place_mut(),
                self.slots.len,
                self.beside.as_mut_ptr(),
                self.beside.len(),
            )
        };
        assert_eq!(code, 0);
    }

    pub fn get(&self, id: u32) -> Option<usize> {
        // SAFETY: each pointer goes with its room's length.
        let row = unsafe {
            hooflift_get(
                self.rows.place(),
                self.rows.len,
                self.slots.place(),
                self.slots.len,
                self.beside.as_ptr(),
                self.beside.len(),
                id,
            )
        };
        (row != NONE).then_some(row as usize)
    }

    pub fn id(&self, row: usize) -> u32 {
        table::id(self.rows.numbers(), row)
    }

    fn get_into(&self, asked: &[u32], found: &mut [u32]) {
        // SAFETY: each pointer goes with its room's length.
        let code = unsafe {
            hooflift_get_all(
                self.rows.place(),
                self.rows.len,
                self.slots.place(),
                self.slots.len,
                self.beside.as_ptr(),
                self.beside.len(),
                asked.as_ptr(),
                asked.len(),
                found.as_mut_ptr(),
                found.len(),
            )
        };
        assert_eq!(code, 0);
    }

    pub fn get_many(&self, asked: &[u32]) -> Vec<Option<usize>> {
        let mut found = vec![0; asked.len()];
        self.get_into(asked, &mut found);
        found.into_iter().map(|row| (row != NONE).then_some(row as usize)).collect()
    }

    /// As `rust_gets`, by one call for many ids.
    pub fn gets_many(&self, asked: &[u32]) -> u64 {
        let mut found = [0; MANY];
        let mut sum = 0;
        for ids in asked.chunks(MANY) {
            self.get_into(ids, &mut found);
            sum += found[..ids.len()].iter().map(|&r| if r == NONE { 0 } else { u64::from(self.id(r as usize)) + 1 }).sum::<u64>();
        }
        sum
    }

    /// As `rust_gets`.
    pub fn gets(&self, asked: &[u32]) -> u64 {
        asked.iter().map(|&id| self.get(id).map_or(0, |r| u64::from(self.id(r)) + 1)).sum()
    }

    /// As `rust_chain`.
    pub fn chain(&self, asked: &[u32], mask: u32) -> u64 {
        let mut found = 0;
        let mut sum = 0;
        for &id in asked {
            found = self.get(id ^ (found & mask)).map_or(0, |r| self.id(r));
            sum += u64::from(found);
        }
        sum
    }

    /// The bytes that finding ids takes beside the rows: the slots, and six of the numbers beside them.
    pub fn bytes(&self) -> u64 {
        self.slots.len as u64 * 8 + 48
    }

    /// What the build found of the ids.
    fn direct(&self) -> bool {
        self.beside[3] % 2 == 1
    }

    fn distinct(&self) -> bool {
        self.beside[3] / 2 % 2 == 1
    }

    fn even(&self) -> bool {
        self.beside[4] % 2 == 1
    }

    pub fn order(&self) -> &'static str {
        match (self.direct(), self.distinct(), self.even()) {
            (true, _, true) => "direct, one step",
            (true, _, false) => "direct",
            (false, _, true) => "unsorted, one step",
            (false, true, false) => "unsorted",
            (false, false, false) => "unsorted, repeated",
        }
    }

    /// The row in a slot, as crates/index reads it.
    fn row_at(&self, slot: usize, seen: &mut Seen) -> usize {
        if self.direct() { slot } else { (self.slot(slot, seen) % ROWS) as usize }
    }

    /// The id in a slot: above the row in it, or the row's own where the rows are their own index.
    fn slot_id(&self, slot: usize, seen: &mut Seen) -> u64 {
        if self.direct() { u64::from(self.id_at(slot, seen)) } else { self.slot(slot, seen) / ROWS }
    }

    fn slot(&self, slot: usize, seen: &mut Seen) -> u64 {
        seen.touch(1 << 40, slot * 8);
        self.slots.numbers()[slot]
    }

    fn id_at(&self, row: usize, seen: &mut Seen) -> u32 {
        seen.touch(0, row * 24);
        self.id(row)
    }

    /// The search of crates/index/specs/Search.antt, with the lines that it touches.
    pub fn counted(&self, id: u32, lines: &mut Lines) -> Option<usize> {
        let mut seen = Seen::default();
        let found = self.first_row(id, &mut seen).filter(|&r| self.stands(r, id, &mut seen)).or_else(|| {
            let end = self.end_of(u64::from(id), &mut seen);
            (end > 0).then(|| self.row_at(end - 1, &mut seen)).filter(|&r| self.stands(r, id, &mut seen))
        });
        lines.add(&seen);
        found
    }

    fn stands(&self, row: usize, id: u32, seen: &mut Seen) -> bool {
        row < self.slots.len && self.id_at(row, seen) == id
    }

    /// The row to look at first, where ids are dense: as far from the first as the id is from the first id.
    fn first_row(&self, id: u32, seen: &mut Seen) -> Option<usize> {
        let [_, first, _, _, _, shift, ..] = self.beside;
        let dense = self.distinct() && shift == 0 && first <= u64::from(id);
        let far = dense.then(|| (u64::from(id) - first) as usize)?;
        if !self.direct() && self.slots.len <= far {
            return Some(0);
        }
        Some(self.row_at(far, seen))
    }

    /// Where the slots that hold ids up to this one end: all, none, by the step, by the guide, or by the search through all.
    fn end_of(&self, k: u64, seen: &mut Seen) -> usize {
        let n = self.slots.len;
        let [_, first, last, ..] = self.beside;
        if last <= k {
            n
        } else if k < first {
            0
        } else if self.even() {
            ((k - first) * (n as u64 - 1) / (last - first)) as usize + 1
        } else if self.direct() {
            self.guide_end(k, seen)
        } else {
            self.end_from(k, (1, n - 1), (first, last), GUIDED, seen)
        }
    }

    /// By the guide: one look where the id would stand if its range were filled evenly, and the search in what is left of the range.
    fn guide_end(&self, k: u64, seen: &mut Seen) -> usize {
        let n = self.slots.len;
        let [_, first, last, _, _, shift, ..] = self.beside;
        let range = (k - first) >> shift;
        let (under, over) = (first + (range << shift), (first + ((range + 1) << shift)).min(last));
        let lo = self.start_at(range as usize, seen).max(1);
        let hi = self.start_at(range as usize + 1, seen).min(n - 1);
        if hi <= lo {
            return lo;
        }
        let m = lo + (((k - under) * (hi - lo) as u64) >> shift) as usize;
        seen.looks += 1;
        let there = u64::from(self.id_at(m, seen));
        match there.cmp(&k) {
            Ordering::Equal => m + 1,
            Ordering::Less => self.end_from(k, (m + 1, hi), (there, over), AFTER, seen),
            Ordering::Greater => self.end_from(k, (lo, m), (under, there), AFTER, seen),
        }
    }

    fn start_at(&self, range: usize, seen: &mut Seen) -> usize {
        if range < self.slots.len { self.slot(range, seen) as usize } else { self.slots.len }
    }

    /// In a bracket of slots, with the ids at its ends: even guesses, one step from an end, and then the middle.
    fn end_from(&self, k: u64, slots: (usize, usize), ids: (u64, u64), guides: usize, seen: &mut Seen) -> usize {
        let ((mut lo, mut hi), (mut under, mut over)) = (slots, ids);
        let mut guided = guides;
        while lo < hi {
            let guess = match guided {
                0 => lo + (hi - lo) / 2,
                1 => stepped(k, lo, hi, under, over),
                _ => lo - 1 + ((k - under) * (hi + 1 - lo) as u64 / (over - under)) as usize,
            };
            let m = guess.min(hi - 1).max(lo);
            guided = guided.saturating_sub(1);
            seen.looks += 1;
            let there = self.slot_id(m, seen);
            if self.distinct() && there == k {
                return m + 1;
            }
            if there <= k {
                (lo, under) = (m + 1, there);
            } else {
                (hi, over) = (m, there);
            }
        }
        lo
    }
}

fn stepped(k: u64, lo: usize, hi: usize, under: u64, over: u64) -> usize {
    if k - under <= over - k {
        lo - 1 + (k - under) as usize
    } else {
        hi.saturating_sub((over - k) as usize)
    }
}

/// The lines that one lookup touched, each once, and how many slots it looked at.
#[derive(Default)]
struct Seen {
    lines: Vec<usize>,
    looks: usize,
}

impl Seen {
    fn touch(&mut self, room: usize, byte: usize) {
        let line = room + byte / 64;
        if !self.lines.contains(&line) {
            self.lines.push(line);
        }
    }
}

/// Over many lookups.
#[derive(Default)]
pub struct Lines {
    lookups: usize,
    lines: usize,
    most: usize,
    looks: usize,
    most_looks: usize,
}

impl Lines {
    fn add(&mut self, seen: &Seen) {
        self.lookups += 1;
        self.lines += seen.lines.len();
        self.most = self.most.max(seen.lines.len());
        self.looks += seen.looks;
        self.most_looks = self.most_looks.max(seen.looks);
    }

    /// Mean and worst.
    pub fn told(&self) -> String {
        format!("{:.2}, {}", self.lines as f64 / self.lookups as f64, self.most)
    }

    pub fn looks(&self) -> String {
        format!("{:.2}, {}", self.looks as f64 / self.lookups as f64, self.most_looks)
    }
}

/// A number with commas.
pub fn spelt(n: u64) -> String {
    let digits = n.to_string();
    let mut told = String::new();
    for (i, c) in digits.chars().enumerate() {
        if i > 0 && (digits.len() - i) % 3 == 0 {
            told.push(',');
        }
        told.push(c);
    }
    told
}
