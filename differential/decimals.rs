//! What Rust reads of decimals, one to a line of standard input, two answers to each in a line with a blank between: that of the
//! class, and that of any real. An answer is the 16 hex digits of the f64's bits, `12` for what is no real, and for the class `13`
//! for a real outside it. Rust's own parse gives the value. Which decimals are reals, and which of these are of
//! the class, is decided by document 01's words in `oracle/real.rs`, and Rust's parse must agree on what is a real: it takes the same
//! decimals, and beside them only `inf`, `infinity` and `nan`. Of the class its value must be the one that whole numbers give there.
#[path = "oracle/real.rs"]
mod real;

use real::{Reading, names_no_number, nearest, of_class, reading};
use std::io::{Read, Write};

/// The program compared with has room for a line of so many bytes.
const ROOM: usize = 4096;

fn answer(line: &[u8]) -> String {
    if line.len() > ROOM {
        return "too long for this program".to_string();
    }
    let Ok(s) = std::str::from_utf8(line) else {
        return "12 12".to_string();
    };
    let parsed = s.parse::<f64>();
    match reading(s) {
        Reading::NotReal if parsed.is_err() || names_no_number(s) => "12 12".to_string(),
        Reading::NotReal => format!("Rust takes {s:?}, and it is no real"),
        Reading::Real { figures, e } => match parsed {
            Err(_) => format!("Rust refuses {s:?}, and it is a real"),
            Ok(x) if x.is_nan() || x.is_sign_negative() != s.starts_with('-') => {
                format!("Rust gives {s:?} another sign, or no number")
            }
            Ok(x) if of_class(&figures, e) && nearest(&figures, e) == x.abs() => {
                format!("{0:016x} {0:016x}", x.to_bits())
            }
            Ok(_) if of_class(&figures, e) => {
                format!("Rust gives {s:?} another value than the nearest")
            }
            Ok(x) => format!("13 {:016x}", x.to_bits()),
        },
    }
}

fn main() {
    let mut text = Vec::new();
    std::io::stdin().lock().read_to_end(&mut text).expect("standard input");
    let mut lines: Vec<&[u8]> = text.split(|b| *b == b'\n').collect();
    if lines.last().is_some_and(|l| l.is_empty()) {
        lines.pop();
    }
    let mut out = Vec::with_capacity(text.len() * 2);
    for line in lines {
        out.extend_from_slice(answer(line).as_bytes());
        out.push(b'\n');
    }
    std::io::stdout().lock().write_all(&out).expect("standard output");
}
