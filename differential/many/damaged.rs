//! Cuts of real files, most of them damaged.

use crate::draw::{damage, Draw};

pub fn case(files: &[Vec<u8>], seed: u64, i: u64, out: &mut Vec<u8>) {
    let mut draw = Draw::new(seed, i);
    let file = &files[draw.below(files.len())];
    let header = draw.one_in(8);
    let from = if header {
        0
    } else {
        record_from(file, draw.below(file.len().max(1)))
    };
    let length = 1 + draw.pick(&[60, 120, 250, 500, 1000]);
    let mut to = (from + draw.below(length)).min(file.len());
    // Most cuts end at a record's end, as far as a `;` shows it.
    if !draw.one_in(10) {
        to = file[to..]
            .iter()
            .position(|b| *b == b';')
            .map_or(file.len(), |k| to + k + 1);
    }
    to = to.min(from + 4000);
    if !header {
        out.extend_from_slice(draw.pick(&[b"ISO-10303-21;DATA;", b"ISO-10303-21;\nDATA;\n"]));
    }
    out.extend_from_slice(&file[from..to]);
    if draw.one_in(3) {
        out.extend_from_slice(b"ENDSEC;END-ISO-10303-21;");
    }
    for _ in 0..draw.pick(&[0, 0, 1, 1, 1, 2]) {
        damage(&mut draw, out);
    }
}

/// The next place at which a record seems to start.
fn record_from(file: &[u8], at: usize) -> usize {
    file[at..]
        .windows(2)
        .position(|two| two == b"\n#")
        .map_or(at, |k| at + k + 1)
}
