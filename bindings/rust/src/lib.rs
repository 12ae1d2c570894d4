//! A proved reader of STEP exchange files (ISO 10303-21), in safe Rust.
//!
//! A file is opened into rows that say where each record's keyword and arguments stand; nothing is copied, and the tables are sized by
//! the records that the file has, never by the ids that it claims. Every answer is that of a function that is proved for every input;
//! what they answer is said in `include/hooflift.h`.
//!
//! ```
//! let file = b"ISO-10303-21;DATA;#1=A('x',#2);#2=B(1.5);#2=B(2.5);ENDSEC;END-ISO-10303-21;";
//! let step = hooflift::Step::open(file)?;
//! assert_eq!(step.len(), 3);
//! let record = step.require(2)?; // the last of an id
//! assert_eq!(record.keyword()?, b"B");
//! assert_eq!(record.args()?.next_any_f64()?, 2.5);
//! assert_eq!(step.records().map(|r| r.id()).collect::<Vec<_>>(), [1, 2, 2]);
//! # Ok::<(), hooflift::Error>(())
//! ```
//!
//! Reals are read by [`Args::next_any_f64`] and its like for lists, grids, measures and `$`, and by [`any_real`], whatever their digits and their
//! exponent. There are two of each of the readers: those with `any` are for hosts that want the number; those without, as [`Args::next_f64`], keep
//! document 01's class and its refusal 13, so that an answer is one that the papers name.
//!
//! ```
//! let file = b"ISO-10303-21;DATA;#1=CARTESIAN_POINT('',(25.4,-1.025893950136E-17,0.));ENDSEC;END-ISO-10303-21;";
//! let step = hooflift::Step::open(file)?;
//! let mut args = step.require(1)?.args()?;
//! args.skip()?; // its name
//! let mut again = args;
//! assert_eq!(args.next_any_f64_list()?, [25.4, -1.025893950136e-17, 0.0]);
//! assert_eq!(again.next_f64_list().unwrap_err().to_string(), "refused 13/0@46: real outside the class");
//! # Ok::<(), hooflift::Error>(())
//! ```
#![deny(unsafe_code, missing_debug_implementations)]
#![warn(clippy::all)]

mod args;
mod error;
mod raw;
mod record;

use std::borrow::Cow;

pub use args::{any_real, Args, Grid, Logical};
pub use error::{Error, Refusal, Result};
pub use record::{Kind, Part, Parts, Record, Records, RecordsOfKind};

use error::{room, told};

const NONE: u8 = 255;
const NO_ROW: u32 = u32::MAX;

/// What a file's numbers stand for.
#[derive(Debug, Clone, Copy, PartialEq)]
pub struct Units {
    /// Millimetres for a unit of length.
    pub length: f64,
    /// Radians for a unit of angle.
    pub angle: f64,
    pub tolerance: f64,
    /// Whether a context of the file says so.
    pub resolved: bool,
}

/// What a file needs: how many rows of each kind its tables take, and how large the rooms for its lists and texts.
#[derive(Debug, Clone, Copy, PartialEq, Eq)]
pub struct Needs {
    pub headers: u64,
    pub records: u64,
    pub max_id: u64,
    /// How many numbers the longest list or grid has.
    pub items: u64,
    /// How many bytes the longest text has.
    pub text: u64,
    /// How many rows the longest grid has.
    pub rows: u64,
}

/// Tells what a file needs, without reading it into tables.
///
/// ```
/// let needs = hooflift::needs(b"ISO-10303-21;DATA;#1=A((1.,2.,3.),'it''s',4);#2=(B('\\X\\C4')C(((1,2),(3,4),())));ENDSEC;")?;
/// assert_eq!((needs.headers, needs.records, needs.items, needs.text, needs.rows), (0, 2, 4, 4, 3));
/// # Ok::<(), hooflift::Error>(())
/// ```
pub fn needs(file: &[u8]) -> Result<Needs> {
    let mut numbers = [0; raw::NEEDS];
    let (mut reason, mut place) = (0, 0);
    match raw::hooflift_needs(file, &mut numbers, &mut reason, &mut place) {
        0 => {
            let [headers, records, max_id, items, text, rows, ..] = numbers;
            Ok(Needs { headers, records, max_id, items, text, rows })
        }
        number => Err(Error::Refused(Refusal { number, reason, place })),
    }
}

/// A file and its tables.
#[derive(Debug, Clone)]
pub struct Step<'f> {
    file: &'f [u8],
    headers: Vec<u32>,
    rows: Vec<u32>,
    slots: Vec<u64>,
    tables: [u64; raw::TABLES],
}

impl<'f> Step<'f> {
    /// Reads a file: it is asked what it needs, and just that is allocated.
    ///
    /// ```
    /// let error = hooflift::Step::open(b"ISO-10303-21;DATA;;").unwrap_err();
    /// assert_eq!(error.to_string(), "refused 7/2@18: bad record: no #");
    /// ```
    pub fn open(file: &'f [u8]) -> Result<Step<'f>> {
        let needs = needs(file)?;
        let mut tables = [0; raw::TABLES];
        let (mut reason, mut place) = (0, 0);
        let size = |count: u64, each: usize| usize::try_from(count).ok().and_then(|n| n.checked_mul(each)).ok_or(Error::NoMemory);
        let mut headers = room(size(needs.headers, raw::HEADER_ROW)?, 0)?;
        let mut rows = room(size(needs.records, raw::ROW)?, 0)?;
        let mut slots = room(size(needs.records, 1)?, 0)?;
        match raw::hooflift_open(file, &mut headers, &mut rows, &mut slots, &mut tables, &mut reason, &mut place) {
            0 => Ok(Step { file, headers, rows, slots, tables }),
            number => Err(Error::Refused(Refusal { number, reason, place })),
        }
    }

    /// The file's bytes.
    pub fn file(&self) -> &'f [u8] {
        self.file
    }

    /// How many records there are.
    pub fn len(&self) -> usize {
        raw::hooflift_len(&self.tables)
    }

    pub fn is_empty(&self) -> bool {
        self.len() == 0
    }

    /// The largest id, 0 where there is no record.
    pub fn max_id(&self) -> u32 {
        u32::try_from(self.tables[10]).unwrap_or(u32::MAX)
    }

    /// All records in file order, superseded ones included.
    pub fn records(&self) -> Records<'_, 'f> {
        Records::new(self)
    }

    /// The records of a kind, in file order.
    pub fn by_kind(&self, kind: Kind) -> RecordsOfKind<'_, 'f> {
        RecordsOfKind::new(self, kind)
    }

    /// Record k in file order.
    pub fn record(&self, k: usize) -> Option<Record<'_, 'f>> {
        Record::at(self, k)
    }

    /// The last record of an id.
    pub fn get(&self, id: u32) -> Option<Record<'_, 'f>> {
        match raw::hooflift_get(&self.rows, &self.slots, &self.tables, id) {
            NO_ROW => None,
            row => Record::at(self, usize::try_from(row).ok()?),
        }
    }

    /// For each id the number of its last record, as `record` takes it, or none. One call for many ids costs less than `get` for each.
    ///
    /// ```
    /// let file = b"ISO-10303-21;DATA;#7=A();#9=B();#7=C();ENDSEC;END-ISO-10303-21;";
    /// let step = hooflift::Step::open(file)?;
    /// assert_eq!(step.numbers_of(&[7, 8, 9]), [Some(2), None, Some(1)]);
    /// # Ok::<(), hooflift::Error>(())
    /// ```
    pub fn numbers_of(&self, ids: &[u32]) -> Vec<Option<usize>> {
        let mut found = vec![NO_ROW; ids.len()];
        // There is room for all, so that it answers 0.
        raw::hooflift_get_all(&self.rows, &self.slots, &self.tables, ids, &mut found);
        found.into_iter().map(|row| if row == NO_ROW { None } else { usize::try_from(row).ok() }).collect()
    }

    /// The last record of an id; 14 where there is none.
    pub fn require(&self, id: u32) -> Result<Record<'_, 'f>> {
        self.get(id).ok_or(Error::refused(14, 0))
    }

    /// The kind of the last record of an id; `Other` where there is none.
    pub fn kind_of(&self, id: u32) -> Kind {
        Kind::from_number(raw::hooflift_kind_of(self.file, &self.rows, &self.slots, &self.tables, id))
    }

    /// The arguments of the first header record with this keyword, letters in either case.
    pub fn header(&self, name: &str) -> Result<Option<Args<'f>>> {
        let (mut start, mut stop) = (0, 0);
        match raw::hooflift_header_args(self.file, &self.headers, &self.tables, name.as_bytes(), &mut start, &mut stop) {
            0 => Args::new(self.file, start, stop).map(Some),
            NONE => Ok(None),
            number => Err(Error::refused(number, 0)),
        }
    }

    /// The file's name, the first parameter of FILE_NAME; empty where there is none.
    pub fn file_name(&self) -> Result<Cow<'f, str>> {
        self.title(0)
    }

    /// The system that wrote it, the sixth parameter of FILE_NAME; empty where there is none.
    pub fn originating_system(&self) -> Result<Cow<'f, str>> {
        self.title(5)
    }

    /// The text of FILE_NAME after so many parameters, 0 or 5, in a room of just its size.
    fn title(&self, before: usize) -> Result<Cow<'f, str>> {
        let needed = self.header("FILE_NAME")?.map_or(Ok(0), |mut args| match args.skip_n(before).and_then(|()| args.next_param()) {
            Ok(bytes) => Ok(raw::hooflift_text_length(bytes)),
            Err(Error::NoMemory) => Err(Error::NoMemory),
            Err(Error::Refused(_)) => Ok(0),
        })?;
        let mut room = room(needed, 0)?;
        let (mut side, mut start, mut stop, mut fault) = (0, 0, 0, 0);
        let ask = if before == 0 { raw::hooflift_file_name } else { raw::hooflift_originating_system };
        told(ask(self.file, &self.headers, &self.tables, &mut room, &mut side, &mut start, &mut stop, &mut fault), fault)?;
        Ok(args::shown(self.file, room, side, start, stop))
    }

    /// What the file's numbers stand for.
    pub fn units(&self) -> Result<Units> {
        let (mut length, mut angle, mut tolerance, mut resolved, mut fault) = (0.0, 0.0, 0.0, 0, 0);
        let code = raw::hooflift_units(
            self.file, &self.rows, &self.slots, &self.tables, &mut length, &mut angle, &mut tolerance, &mut resolved, &mut fault,
        );
        told(code, fault)?;
        Ok(Units { length, angle, tolerance, resolved: resolved == 1 })
    }

    /// The rows as they are kept beside a file: 24 bytes each.
    pub fn keep(&self) -> Result<Vec<u8>> {
        let len = self.len();
        let mut bytes = room(len.checked_mul(24).ok_or(Error::NoMemory)?, 0)?;
        let mut kept = 0;
        told(raw::hooflift_keep_rows(self.file.len(), &self.rows, len, &mut bytes, &mut kept), 0)?;
        Ok(bytes)
    }
}

/// Rows that were kept beside a file of so many bytes, six numbers each.
pub fn read_kept(file_len: usize, bytes: &[u8]) -> Result<Vec<[u32; 6]>> {
    let mut rows = room(bytes.len() / 4, 0u32)?;
    let mut count = 0;
    told(raw::hooflift_read_rows(file_len, bytes, &mut rows, &mut count), 0)?;
    let mut kept = Vec::new();
    kept.try_reserve_exact(count).map_err(|_| Error::NoMemory)?;
    kept.extend(rows.chunks_exact(raw::ROW).take(count).filter_map(|row| <[u32; 6]>::try_from(row).ok()));
    Ok(kept)
}
