//! Why there is no answer.
use std::fmt;

/// A refusal of document 01: its number, its reason (0 but for number 7) and its place in the file.
#[derive(Debug, Clone, Copy, PartialEq, Eq)]
pub struct Refusal {
    pub number: u8,
    pub reason: u8,
    pub place: usize,
}

/// A refusal, or that the host has no memory for what the answer takes.
#[derive(Debug, Clone, Copy, PartialEq, Eq)]
pub enum Error {
    Refused(Refusal),
    NoMemory,
}

/// What every reading function gives.
pub type Result<T> = std::result::Result<T, Error>;

const WORDS: [&str; 17] = [
    "refused",
    "no Part 21 marker",
    "file too long",
    "comment open",
    "string open",
    "record without ;",
    "parenthesis open",
    "bad record",
    "no row left",
    "span or kept row outside the file or backwards",
    "no parameter left",
    "literal open in a parameter",
    "parameter of another type",
    "real outside the class",
    "no record with this id",
    "unit chain too deep",
    "output too short",
];

const REASONS: [&str; 8] =
    ["", "header record without (", "no #", "id above 4294967295", "no digits", "no =", "nothing after =", "no ("];

impl fmt::Display for Refusal {
    fn fmt(&self, f: &mut fmt::Formatter<'_>) -> fmt::Result {
        let words = WORDS.get(usize::from(self.number)).unwrap_or(&WORDS[0]);
        write!(f, "refused {}/{}@{}: {words}", self.number, self.reason, self.place)?;
        match REASONS.get(usize::from(self.reason)) {
            Some(why) if !why.is_empty() => write!(f, ": {why}"),
            _ => Ok(()),
        }
    }
}

impl fmt::Display for Error {
    fn fmt(&self, f: &mut fmt::Formatter<'_>) -> fmt::Result {
        match self {
            Error::Refused(refusal) => refusal.fmt(f),
            Error::NoMemory => f.write_str("no memory"),
        }
    }
}

impl std::error::Error for Error {}

impl Error {
    pub(crate) fn refused(number: u8, place: usize) -> Error {
        Error::Refused(Refusal { number, reason: 0, place })
    }

    /// The refusal, if it is one.
    pub fn refusal(&self) -> Option<Refusal> {
        match self {
            Error::Refused(refusal) => Some(*refusal),
            Error::NoMemory => None,
        }
    }
}

/// An answer's code as a result: 0, or a refusal at this place.
pub(crate) fn told(code: u8, place: usize) -> Result<()> {
    match code {
        0 => Ok(()),
        number => Err(Error::refused(number, place)),
    }
}

/// A room of so many values, or that there is no memory for it.
pub(crate) fn room<T: Copy>(len: usize, value: T) -> Result<Vec<T>> {
    let mut room = Vec::new();
    room.try_reserve_exact(len).map_err(|_| Error::NoMemory)?;
    room.resize(len, value);
    Ok(room)
}
