//! The `units` line.
//!
//! The original's `units::resolve` recurses without a bound, reads reals outside the class, and takes `inf` and its like. So the
//! driver first goes the way that document 01 describes, over the same rows, with the readers of `reader.rs`. Where it met
//! nothing outside the domain the original is asked, and must say the same; else the driver's answer is printed: 15 for the
//! seventeenth conversion unit of a chain, 13 for a real outside the class, no number for `inf`, `nan`, byte 0B and the like.

use crate::document::{Answer, Reader, bits};
use crate::listed::{self, Listed};
use crate::lookup::last_rows;
use crate::parts;
use crate::reader::{Told, put_bits, tell_and_note};
use crate::refusal::{self, Refusal};
use crate::step::Step;
use cad_step::scan::{RecordSpan, Scan};
use cad_step::{Kind, StepError, units};
use std::cell::Cell;
use std::collections::HashMap;
use std::fmt::Write;
use std::panic::{AssertUnwindSafe, catch_unwind};

/// Lengths, angles, tolerance as bits, and whether a context decided.
type Units = (u64, u64, u64, bool);

/// A reader's place and end, handed on by its calls.
struct At {
    place: usize,
    end: usize,
}

pub struct Way<'a> {
    file: &'a [u8],
    rows: &'a [RecordSpan],
    last: HashMap<u32, usize>,
    outside: Cell<bool>,
}

impl Way<'_> {
    fn get(&self, id: u32) -> Option<&RecordSpan> {
        self.last.get(&id).map(|&row| &self.rows[row])
    }

    fn kind(&self, e: &RecordSpan) -> Kind {
        if e.complex {
            Kind::Complex
        } else {
            Kind::intern(&self.file[e.keyword.start as usize..e.keyword.end as usize])
        }
    }

    fn arguments(e: &RecordSpan) -> At {
        At {
            place: e.args.start as usize,
            end: e.args.end as usize,
        }
    }

    fn read(&self, reader: Reader, at: &mut At) -> Result<Answer, Refusal> {
        match tell_and_note(reader, self.file, at.place, at.end, &self.outside) {
            Told::Said(after, told) => {
                at.place = after;
                told
            }
            _ => panic!("a reader of the original panicked, or parts from document 01"),
        }
    }

    /// A number that is not of another type: 13 refuses the whole answer, the rest counts as unreadable.
    fn measure(&self, at: &mut At) -> Result<Option<f64>, Refusal> {
        match self.read(Reader::Measure, at) {
            Ok(Answer::Real(bits)) => Ok(Some(f64::from_bits(bits))),
            Err(refusal) if refusal.number == 13 => Err(refusal),
            _ => Ok(None),
        }
    }

    /// All parts of a complex record, none of a simple one.
    fn parts(&self, e: &RecordSpan) -> Result<Vec<parts::Part>, Refusal> {
        match parts::of(self.file, e) {
            (_, Some(fault)) => Err(fault),
            (parts, None) => Ok(parts),
        }
    }

    /// The first part of a kind, or the record itself where it is simple and of that kind.
    fn part(&self, e: &RecordSpan, kind: Kind) -> Result<Option<At>, Refusal> {
        if self.kind(e) == kind {
            return Ok(Some(Self::arguments(e)));
        }
        let found = self.parts(e)?.into_iter().find(|p| p.kind == kind);
        Ok(found.map(|p| At {
            place: p.args.start,
            end: p.args.end,
        }))
    }

    fn references(&self, list: Option<At>) -> Result<Vec<u32>, Refusal> {
        let Some(mut at) = list else {
            return Ok(Vec::new());
        };
        match self.read(Reader::RefList, &mut at)? {
            Answer::Refs(list) => Ok(list),
            other => panic!("no references: {other:?}"),
        }
    }

    fn resolve(&self) -> Result<Units, Refusal> {
        for e in self.rows {
            let Some(mut at) = self.part(e, Kind::GeometricRepresentationContext)? else {
                continue;
            };
            if self.read(Reader::I64, &mut at).is_err() {
                continue;
            }
            let found = self.of_context(e)?;
            if found.3 {
                return Ok(found);
            }
        }
        Ok((bits(1.0), bits(1.0), bits(1e-3), false))
    }

    fn of_context(&self, context: &RecordSpan) -> Result<Units, Refusal> {
        let (mut length, mut angle) = (None, 1.0);
        for id in self.references(self.part(context, Kind::GlobalUnitAssignedContext)?)? {
            let Some(unit) = self.get(id) else {
                continue;
            };
            let role = self.parts(unit)?.iter().map(|p| p.kind).find(|kind| {
                matches!(
                    kind,
                    Kind::LengthUnit | Kind::PlaneAngleUnit | Kind::SolidAngleUnit
                )
            });
            match role {
                Some(Kind::LengthUnit) => length = self.length(unit, 0)?.or(length),
                Some(Kind::PlaneAngleUnit) => angle = self.angle(unit)?.unwrap_or(angle),
                _ => {}
            }
        }
        let mut tolerance = None;
        for id in self.references(self.part(context, Kind::GlobalUncertaintyAssignedContext)?)? {
            if tolerance.is_none()
                && let Some(e) = self.get(id)
                && self.kind(e) == Kind::UncertaintyMeasureWithUnit
            {
                tolerance = self.measure(&mut Self::arguments(e))?;
            }
        }
        Ok((
            bits(length.unwrap_or(1.0)),
            bits(angle),
            bits(tolerance.unwrap_or(1e-3)),
            length.is_some(),
        ))
    }

    /// The prefix factor of an SI part, or none where its name is another.
    fn si(&self, mut at: At, name: &str) -> Option<f64> {
        let mut word = || match self.read(Reader::Enum, &mut at) {
            Ok(Answer::Name(bytes)) => Some(bytes),
            _ => None,
        };
        let prefix = word();
        if word().is_some_and(|bytes| !bytes.eq_ignore_ascii_case(name.as_bytes())) {
            return None;
        }
        let prefix = prefix.unwrap_or_default().to_ascii_uppercase();
        Some(
            PREFIXES
                .iter()
                .find(|(p, _)| p.as_bytes() == prefix)
                .map_or(1.0, |(_, factor)| *factor),
        )
    }

    /// The measure that a conversion part leads to.
    fn converted(&self, mut at: At) -> Result<u32, Refusal> {
        self.read(Reader::Skip, &mut at)?;
        match self.read(Reader::Ref, &mut at)? {
            Answer::Ref(id) => Ok(id),
            other => panic!("no reference: {other:?}"),
        }
    }

    /// `before` conversion units stand before this unit on its chain. The original's recursion is a loop here.
    fn length(&self, unit: &RecordSpan, mut before: usize) -> Result<Option<f64>, Refusal> {
        let mut values = Vec::new();
        let mut e = unit;
        let base = loop {
            // Parts, and an SI part, come before the count; the count comes before the name.
            if let Some(at) = self.part(e, Kind::SiUnit)? {
                break self.si(at, "METRE").map(|factor| 1000.0 * factor);
            }
            let Some(at) = self.part(e, Kind::ConversionBasedUnit)? else {
                break None;
            };
            before += 1;
            if before > 16 {
                self.outside.set(true);
                return Err(Refusal::new(15, e.args.start as usize));
            }
            let Some(measure) = self.get(self.converted(at)?) else {
                break None;
            };
            let at = if measure.complex {
                self.part(measure, Kind::LengthMeasureWithUnit)?
            } else {
                // Any simple keyword serves as a length measure.
                Some(Self::arguments(measure))
            };
            let Some(mut at) = at else {
                break None;
            };
            let Some(value) = self.measure(&mut at)? else {
                break None;
            };
            let Ok(Answer::Ref(base)) = self.read(Reader::Ref, &mut at) else {
                break None;
            };
            let Some(base) = self.get(base) else {
                break None;
            };
            values.push(value);
            e = base;
        };
        // The last value was multiplied first.
        Ok(base.map(|factor| {
            values
                .iter()
                .rev()
                .fold(factor, |factor, value| value * factor)
        }))
    }

    fn angle(&self, unit: &RecordSpan) -> Result<Option<f64>, Refusal> {
        if let Some(at) = self.part(unit, Kind::SiUnit)? {
            return Ok(self.si(at, "RADIAN"));
        }
        let Some(at) = self.part(unit, Kind::ConversionBasedUnit)? else {
            return Ok(None);
        };
        // A complex measure's whole run of parts is read as arguments.
        match self.get(self.converted(at)?) {
            Some(measure) => self.measure(&mut Self::arguments(measure)),
            None => Ok(None),
        }
    }
}

const PREFIXES: [(&str, f64); 16] = [
    ("EXA", 1e18),
    ("PETA", 1e15),
    ("TERA", 1e12),
    ("GIGA", 1e9),
    ("MEGA", 1e6),
    ("KILO", 1e3),
    ("HECTO", 1e2),
    ("DECA", 1e1),
    ("DECI", 1e-1),
    ("CENTI", 1e-2),
    ("MILLI", 1e-3),
    ("MICRO", 1e-6),
    ("NANO", 1e-9),
    ("PICO", 1e-12),
    ("FEMTO", 1e-15),
    ("ATTO", 1e-18),
];

fn put(out: &mut String, told: &Result<Units, Refusal>) {
    match told {
        Ok((length, angle, tolerance, resolved)) => {
            for number in [length, angle, tolerance] {
                put_bits(out, number);
                out.push(' ');
            }
            let _ = writeln!(out, "{}", u8::from(*resolved));
        }
        Err(refusal) => {
            let _ = writeln!(out, "{refusal}");
        }
    }
}

/// Prints what `own` says by document 01's words and `original` by the Rust: the latter inside the domain, where both must agree.
fn tell(
    way: &Way<'_>,
    out: &mut String,
    own: impl Fn() -> Result<Units, Refusal>,
    original: impl Fn() -> Result<units::Units, StepError>,
) {
    way.outside.set(false);
    let Ok(own) = catch_unwind(AssertUnwindSafe(own)) else {
        out.push_str("panic\n");
        return;
    };
    if way.outside.get() {
        listed::note(Listed::Units);
        put(out, &own);
        return;
    }
    let Ok(told) = catch_unwind(AssertUnwindSafe(original)) else {
        out.push_str("panic\n");
        return;
    };
    let told = told
        .map(|u| {
            (
                bits(u.length_to_mm),
                bits(u.angle_to_rad),
                bits(u.uncertainty),
                u.resolved,
            )
        })
        .map_err(|error| refusal::of(&error));
    put(out, &told);
    if told != own {
        out.push_str("driver units ");
        put(out, &own);
    }
}

/// The way over a file's rows.
pub fn way<'a>(file: &'a [u8], scan: &'a Scan) -> Way<'a> {
    Way {
        file,
        rows: &scan.records,
        last: last_rows(scan),
        outside: Cell::new(false),
    }
}

pub fn print(file: &[u8], scan: &Scan, step: &Step, out: &mut String) {
    let way = way(file, scan);
    out.push_str("units ");
    tell(&way, out, || way.resolve(), || units::resolve(&step.file));
}

/// Prints the units that row `i` declares as a context.
pub fn print_context(way: &Way<'_>, step: &Step, i: usize, out: &mut String) {
    tell(
        way,
        out,
        || way.of_context(&way.rows[i]),
        || units::units_of_context(&step.file, &step.file.entities()[i]),
    );
}
