//! How often the original's own answer is another one than is printed: the differences that docs/DIFFERENCES.md lists.

use std::sync::atomic::{AtomicU64, Ordering::Relaxed};

/// What differs, in the order of the counts.
#[derive(Clone, Copy)]
pub enum Listed {
    /// 13 is printed where the original reads a real outside the class.
    Class,
    /// 12 is printed where the original reads `inf`, `nan`, or trims byte 0B or Unicode white space.
    Type,
    /// Another text or number: a high surrogate without its low one (in a string with pages too), an exponent of 65536 or more.
    Value,
    /// The place of 12 that `next_bool` gives.
    Place,
    /// Units by document 01's words: 15, 13, or no number.
    Units,
    /// A keyword that is no text.
    Keyword,
    /// `Other`: every keyword but ten.
    Other,
    /// Another text: `\S\` on one of the pages B to I, which the original forgets.
    Page,
}

const NAMES: [&str; 8] = [
    "class", "type", "value", "place", "units", "keyword", "other", "pages",
];
static COUNTS: [AtomicU64; 8] = [const { AtomicU64::new(0) }; 8];

pub fn note(what: Listed) {
    COUNTS[what as usize].fetch_add(1, Relaxed);
}

/// A line for each, `listed NAME COUNT`.
pub fn lines() -> String {
    let mut out = String::new();
    for (name, count) in NAMES.iter().zip(&COUNTS) {
        out.push_str(&format!("listed {name} {}\n", count.load(Relaxed)));
    }
    out
}
