//! Records, and the parts of complex ones.
use crate::args::Args;
use crate::error::{Error, Result};
use crate::{raw, Step, Units, NONE};

/// The kinds of records that the units need; all others are `Other`.
#[derive(Debug, Clone, Copy, PartialEq, Eq, Hash)]
#[repr(u32)]
pub enum Kind {
    GeometricRepresentationContext = 0,
    GlobalUnitAssignedContext = 1,
    GlobalUncertaintyAssignedContext = 2,
    LengthUnit = 3,
    PlaneAngleUnit = 4,
    SolidAngleUnit = 5,
    SiUnit = 6,
    ConversionBasedUnit = 7,
    UncertaintyMeasureWithUnit = 8,
    LengthMeasureWithUnit = 9,
    Complex = 10,
    Other = 11,
}

const KINDS: [Kind; 11] = [
    Kind::GeometricRepresentationContext,
    Kind::GlobalUnitAssignedContext,
    Kind::GlobalUncertaintyAssignedContext,
    Kind::LengthUnit,
    Kind::PlaneAngleUnit,
    Kind::SolidAngleUnit,
    Kind::SiUnit,
    Kind::ConversionBasedUnit,
    Kind::UncertaintyMeasureWithUnit,
    Kind::LengthMeasureWithUnit,
    Kind::Complex,
];

impl Kind {
    pub(crate) fn from_number(number: u32) -> Kind {
        usize::try_from(number).ok().and_then(|n| KINDS.get(n).copied()).unwrap_or(Kind::Other)
    }

    /// The kind of a keyword, letters in either case.
    pub fn of(keyword: &[u8]) -> Kind {
        Kind::from_number(raw::hooflift_intern(keyword))
    }
}

/// A record: its row in the tables.
#[derive(Debug, Clone, Copy)]
pub struct Record<'s, 'f> {
    step: &'s Step<'f>,
    number: usize,
    row: [u64; raw::ROW],
}

impl<'s, 'f> Record<'s, 'f> {
    pub(crate) fn at(step: &'s Step<'f>, number: usize) -> Option<Record<'s, 'f>> {
        let mut row = [0; raw::ROW];
        match raw::hooflift_entity(&step.rows, &step.tables, number, &mut row) {
            0 => Some(Record { step, number, row }),
            _ => None,
        }
    }

    /// Its number in file order.
    pub fn number(&self) -> usize {
        self.number
    }

    pub fn id(&self) -> u32 {
        u32::try_from(self.row[0]).unwrap_or(u32::MAX)
    }

    pub fn is_complex(&self) -> bool {
        self.row[5] == 1
    }

    pub fn kind(&self) -> Kind {
        Kind::from_number(raw::hooflift_kind(self.step.file, &self.step.rows, &self.step.tables, self.number))
    }

    /// Its keyword in the file; empty for a complex record.
    pub fn keyword(&self) -> Result<&'f [u8]> {
        let (mut start, mut stop) = (0, 0);
        match raw::hooflift_keyword(self.step.file, &self.step.rows, &self.step.tables, self.number, &mut start, &mut stop) {
            0 => Ok(self.step.file.get(start..stop).unwrap_or(&[])),
            number => Err(Error::refused(number, 0)),
        }
    }

    /// Where its arguments begin and end in the file.
    pub fn span(&self) -> Result<(usize, usize)> {
        let (mut start, mut stop) = (0, 0);
        match raw::hooflift_args_of(self.step.file, &self.step.rows, &self.step.tables, self.number, &mut start, &mut stop) {
            0 => Ok((start, stop)),
            number => Err(Error::refused(number, 0)),
        }
    }

    /// A reader of its arguments.
    pub fn args(&self) -> Result<Args<'f>> {
        let (start, stop) = self.span()?;
        Args::new(self.step.file, start, stop)
    }

    /// The parts of a complex record; a simple one has none.
    ///
    /// ```
    /// let step = hooflift::Step::open(b"ISO-10303-21;DATA;#2=(P(1.)Q($));ENDSEC;")?;
    /// let parts = step.require(2)?.parts()?.collect::<Result<Vec<_>, _>>()?;
    /// assert_eq!(parts[0].keyword(), b"P");
    /// assert_eq!(parts[0].args()?.next_any_f64()?, 1.0);
    /// assert_eq!(parts[1].keyword(), b"Q");
    /// # Ok::<(), hooflift::Error>(())
    /// ```
    pub fn parts(&self) -> Result<Parts<'f>> {
        let (at, end) = self.span()?;
        Ok(Parts { file: self.step.file, at, end, over: !self.is_complex() })
    }

    /// The first part of a kind, once all parts have been read.
    pub fn part(&self, kind: Kind) -> Result<Option<Part<'f>>> {
        let (start, end) = self.span()?;
        let (mut part, mut fault) = ([0; raw::HEADER_ROW], 0);
        let complex = u32::from(self.is_complex());
        match raw::hooflift_complex_part(self.step.file, start, end, complex, kind as u32, &mut part, &mut fault) {
            0 => Ok(Part::from_numbers(self.step.file, part)),
            NONE => Ok(None),
            number => Err(Error::refused(number, fault)),
        }
    }

    /// The units that the record gives as a context.
    pub fn units(&self) -> Result<Units> {
        let step = self.step;
        let (mut length, mut angle, mut tolerance, mut resolved, mut fault) = (0.0, 0.0, 0.0, 0, 0);
        let code = raw::hooflift_units_of_context(
            step.file, &step.rows, &step.slots, &step.tables, self.number, &mut length, &mut angle, &mut tolerance, &mut resolved, &mut fault,
        );
        match code {
            0 => Ok(Units { length, angle, tolerance, resolved: resolved == 1 }),
            number => Err(Error::refused(number, fault)),
        }
    }
}

/// All records, in file order.
#[derive(Debug, Clone)]
pub struct Records<'s, 'f> {
    step: &'s Step<'f>,
    next: usize,
    len: usize,
}

impl<'s, 'f> Records<'s, 'f> {
    pub(crate) fn new(step: &'s Step<'f>) -> Self {
        Records { step, next: 0, len: step.len() }
    }
}

impl<'s, 'f> Iterator for Records<'s, 'f> {
    type Item = Record<'s, 'f>;

    fn next(&mut self) -> Option<Self::Item> {
        let record = Record::at(self.step, self.next)?;
        self.next += 1;
        Some(record)
    }

    fn size_hint(&self) -> (usize, Option<usize>) {
        let left = self.len.saturating_sub(self.next);
        (left, Some(left))
    }
}

impl ExactSizeIterator for Records<'_, '_> {}

/// The records of a kind, in file order.
#[derive(Debug, Clone)]
pub struct RecordsOfKind<'s, 'f> {
    step: &'s Step<'f>,
    kind: Kind,
    from: usize,
}

impl<'s, 'f> RecordsOfKind<'s, 'f> {
    pub(crate) fn new(step: &'s Step<'f>, kind: Kind) -> Self {
        RecordsOfKind { step, kind, from: 0 }
    }
}

impl<'s, 'f> Iterator for RecordsOfKind<'s, 'f> {
    type Item = Record<'s, 'f>;

    fn next(&mut self) -> Option<Self::Item> {
        let (step, mut row) = (self.step, 0);
        match raw::hooflift_by_kind(step.file, &step.rows, &step.tables, self.kind as u32, self.from, &mut row) {
            0 => {
                self.from = row.saturating_add(1);
                Record::at(step, row)
            }
            _ => None,
        }
    }
}

/// A part of a complex record.
#[derive(Debug, Clone, Copy)]
pub struct Part<'f> {
    file: &'f [u8],
    keyword: &'f [u8],
    args: (usize, usize),
}

impl<'f> Part<'f> {
    fn from_numbers(file: &'f [u8], part: [u64; raw::HEADER_ROW]) -> Option<Part<'f>> {
        let place = |n: u64| usize::try_from(n).ok();
        let keyword = file.get(place(part[0])?..place(part[1])?)?;
        Some(Part { file, keyword, args: (place(part[2])?, place(part[3])?) })
    }

    pub fn keyword(&self) -> &'f [u8] {
        self.keyword
    }

    /// A reader of its arguments.
    pub fn args(&self) -> Result<Args<'f>> {
        Args::new(self.file, self.args.0, self.args.1)
    }
}

/// The parts of a complex record, up to the first refusal.
#[derive(Debug, Clone)]
pub struct Parts<'f> {
    file: &'f [u8],
    at: usize,
    end: usize,
    over: bool,
}

impl<'f> Iterator for Parts<'f> {
    type Item = Result<Part<'f>>;

    fn next(&mut self) -> Option<Self::Item> {
        if self.over {
            return None;
        }
        let (mut numbers, mut fault) = ([0; raw::HEADER_ROW], 0);
        match raw::hooflift_next_part(self.file, self.at, self.end, &mut numbers, &mut fault) {
            0 => {
                let part = Part::from_numbers(self.file, numbers)?;
                self.at = part.args.1.saturating_add(1);
                Some(Ok(part))
            }
            NONE => {
                self.over = true;
                None
            }
            number => {
                self.over = true;
                Some(Err(Error::refused(number, fault)))
            }
        }
    }
}
