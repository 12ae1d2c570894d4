//! Files whose strings, comments and runs of other bytes are long, so that what is sought by blocks of bytes is: ends that lie just before, in and
//! just after a block, parentheses that balance only far away, and strings and comments that are never closed.

use crate::draw::{damage, Draw};

pub fn case(seed: u64, i: u64, out: &mut Vec<u8>) {
    let mut draw = Draw::new(seed, i);
    out.extend_from_slice(draw.pick(&[
        b"ISO-10303-21;DATA;".as_slice(),
        b"ISO-10303-21;HEADER;FILE_NAME('a');ENDSEC;DATA;",
        b"ISO-10303-21;HEADER;",
    ]));
    for _ in 0..1 + draw.below(4) {
        record(&mut draw, out);
    }
    if !draw.one_in(3) {
        out.extend_from_slice(b"ENDSEC;END-ISO-10303-21;");
    }
    if draw.one_in(8) {
        damage(&mut draw, out);
    }
}

/// A record, nearly always with its head and its ends.
fn record(draw: &mut Draw, out: &mut Vec<u8>) {
    if !draw.one_in(10) {
        out.extend_from_slice(format!("#{}=", 1 + draw.below(9)).as_bytes());
        out.extend_from_slice(draw.pick(&[b"A(".as_slice(), b"A(", b"A(", b"(", b"(P("]));
    }
    for _ in 0..draw.below(10) {
        piece(draw, out);
    }
    for (byte, rare) in [(b')', 10), (b';', 12)] {
        if !draw.one_in(rare) {
            out.push(byte);
        }
    }
    if draw.one_in(3) {
        out.push(b'\n');
    }
}

/// A string, a comment, a run of parentheses or of other bytes, or one byte that has a meaning.
fn piece(draw: &mut Draw, out: &mut Vec<u8>) {
    let length = match draw.below(4) {
        0 => draw.below(8),
        1 => 56 + draw.below(16),
        2 => 120 + draw.below(16),
        _ => draw.below(220),
    };
    match draw.below(9) {
        0 | 1 => {
            out.push(b'\'');
            run(draw, out, length, b";()/*,", 60);
            out.extend_from_slice(draw.pick(&[b"'".as_slice(), b"'", b"'", b"'", b"''", b"'''", b""]));
        }
        2 => {
            out.extend_from_slice(b"/*");
            run(draw, out, length, b"*/';)", 30);
            out.extend_from_slice(draw.pick(&[b"*/".as_slice(), b"*/", b"*/", b"**/", b"*"]));
        }
        3 => run(draw, out, length, b"()", 6),
        4 => run(draw, out, length, b"(", 1),
        5 => run(draw, out, length, b")", 1),
        6 => out.push(draw.pick(b"/*';(),gh{o \n")),
        _ => run(draw, out, length, b", g{.#", 12),
    }
}

/// So many bytes, one in so many of them one of these, the others digits.
fn run(draw: &mut Draw, out: &mut Vec<u8>, length: usize, meant: &[u8], rare: usize) {
    for _ in 0..length {
        let byte = if draw.one_in(rare) { draw.pick(meant) } else { b'0' + draw.below(10) as u8 };
        out.push(byte);
    }
}
