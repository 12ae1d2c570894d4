//! Document 01's refusal numbers, reasons and places for the original's errors.
//!
//! Places follow document 01's table. For the scan's errors, which are those of a complex record's parts too, the original's
//! offset is that place in every case:
//!
//! | no. | the table's place | the original's offset |
//! |---|---|---|
//! | 3 | its `/` | `skip_trivia` keeps the place of the `/` whose comment does not end, also where it is called at an earlier comment and has gone on over further ones |
//! | 4 | its first quote | `skip_string` keeps the place of the opening quote |
//! | 5 | its start | `find_record_end` is called at the first byte after trivia |
//! | 6 | its `(` | `matching_paren` gives the `(` it was called at, the outermost one |
//! | 7 | its start | `body.start`, again the first byte after trivia |
//!
//! And so it is for the argument reader's errors, but for one:
//!
//! | no. | the table's place | the original's offset |
//! |---|---|---|
//! | 10 | reader's place | `param_span` has skipped the trivia and gives where they end |
//! | 11 | its quote | `param_span` gives the opening quote |
//! | 12 | parameter or item start | the span's start, which is the parameter's or the item's; `next_bool` gives the place after the parameter instead, so the driver takes where the trivia end |
//!
//! 14 is the original's `DanglingRef`, which has no place. 2, 13, 15 are the driver's own: the original has no such bounds. 8 and 16 depend on lent rooms, which it has not either;
//! 9 is not asked for in the text form.

use cad_step::StepError;
use std::fmt;

#[derive(Clone, Copy, PartialEq, Eq, Debug)]
pub struct Refusal {
    pub number: u8,
    pub reason: u8,
    pub place: usize,
}

impl Refusal {
    pub fn new(number: u8, place: usize) -> Self {
        Refusal {
            number,
            reason: 0,
            place,
        }
    }
}

impl fmt::Display for Refusal {
    fn fmt(&self, f: &mut fmt::Formatter<'_>) -> fmt::Result {
        write!(f, "{}/{}@{}", self.number, self.reason, self.place)
    }
}

/// An error of the original as document 01 numbers it. An error without a number is a panic, and would be seen.
pub fn of(error: &StepError) -> Refusal {
    match error {
        StepError::NotPart21 => Refusal::new(1, 0),
        StepError::Unterminated { what, offset } => {
            let number = match *what {
                "comment" => 3,
                "string literal" => 4,
                "record" => 5,
                "parenthesis" => 6,
                other => panic!("unknown unterminated thing: {other}"),
            };
            Refusal::new(number, *offset)
        }
        StepError::Record { offset, detail } => {
            let reason = match detail.as_str() {
                "header record has no `(`" => 1,
                "data record does not start with `#`" => 2,
                "entity id overflows u32" => 3,
                "entity id has no digits" => 4,
                "expected `=` after entity id" => 5,
                "record has no value after `=`" => 6,
                "simple record has no `(`" => 7,
                // "record has an empty keyword" has no number: it cannot occur, as the first byte after `=` and its
                // whitespace is there, is no whitespace and is not the `(`. A panic would show it.
                other => panic!("unknown detail: {other}"),
            };
            Refusal {
                number: 7,
                reason,
                place: *offset,
            }
        }
        StepError::Value { offset, detail } => {
            let number = match detail.as_str() {
                "expected a parameter, found end of record" => 10,
                "unterminated string literal" | "unterminated binary literal" => 11,
                other if other.starts_with("expected ") => 12,
                other => panic!("unknown detail: {other}"),
            };
            Refusal::new(number, *offset)
        }
        StepError::DanglingRef { .. } => Refusal::new(14, 0),
        other => panic!("no number for: {other}"),
    }
}
